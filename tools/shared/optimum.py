#!/usr/bin/env python3
"""How often a block would be copied by the best possible eviction, beside first in, first out, and how often a return finds its target
in the runtime's memo.

Reads, by pickle from the standard input, a `Followed` and numbers of slots. Writes a line for each number: the slots, the misses of
first in, first out, the fewest misses, and the returns outside the memo by first in, first out. The fewest are Belady's: the block
leaves that is needed again last. No eviction that copies each block when control comes to it has fewer.
"""
import array
import collections
import pickle
import sys

MEMO = 16  # targets of jumps over registers, by their address in words (native/README.md)


def followed(order, blocks_of, behind, begins, jumps):
    """What control does, one behind the other: numbers below that of the blocks are blocks that it comes to; the others are jumps over
    registers by (target, its block, whether it is a return), in a list. `order` are numbers of straight runs, of which each comes to
    `blocks_of`, begins with the word `begins`, and ends with what `jumps` says: None, or whether that is a return."""
    count = 1 + max((block for blocks in [*blocks_of, behind] for block in blocks), default=0)
    found, known, last, before = array.array("I"), {}, None, None
    for each in order:
        if before is not None:
            jump = begins[each], blocks_of[each][0], before
            found.append(count + known.setdefault(jump, len(known)))
        for block in blocks_of[each]:
            if block != last:
                found.append(block)
                last = block
        before = jumps[each]
    found.extend(block for block in behind if block != last)
    return found, count, list(known)


def next_uses(found):
    """For each place in the list that of the same block's next; its end where there is none."""
    after, later, end = array.array("Q", bytes(8 * len(found))), {}, len(found)
    for at in range(end - 1, -1, -1):
        after[at] = later.get(found[at], end)
        later[found[at]] = at
    return after


def first_out(found, count, known, slots):
    """The misses where the block leaves that came first, and the returns whose target is not in the memo, which an eviction empties."""
    held, queue, misses, outside, memo = set(), collections.deque(), 0, 0, {}
    for each in found:
        if each < count:
            if each not in held:
                misses += 1
                if len(queue) == slots:
                    held.discard(queue.popleft())
                    memo.clear()
                queue.append(each)
                held.add(each)
            continue
        target, block, is_return = known[each - count]
        if memo.get(target % MEMO) != target:
            outside += is_return
            if block in held:
                memo[target % MEMO] = target
    return misses, outside


def fewest(found, after, slots):
    """The misses where the block leaves whose next use is the latest."""
    held, misses = {}, 0
    for block, use in zip(found, after):
        if block not in held:
            misses += 1
            if len(held) == slots:
                del held[max(held, key=held.__getitem__)]
        held[block] = use
    return misses


def main():
    course, numbers = pickle.load(sys.stdin.buffer)
    found, count, known = followed(*course)
    entered = array.array("I", (each for each in found if each < count))
    after, blocks = next_uses(entered), len(set(entered))
    for slots in numbers:
        misses, outside = first_out(found, count, known, slots)
        print(slots, misses, blocks if slots >= blocks else fewest(entered, after, slots), outside)


if __name__ == "__main__":
    main()
