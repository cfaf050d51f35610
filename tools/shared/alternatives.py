"""What a program costs without a cache: all of it in slow memory, all in fast RAM, or its hottest functions there and the rest slow."""
import bisect
import dataclasses
import heapq
import itertools


@dataclasses.dataclass(frozen=True)
class Function:
    """A function that is executed, or a piece of text in its stead: its bytes, the steps in it, and its address."""
    name: str
    size: int
    steps: int
    address: int = 0


@dataclasses.dataclass(frozen=True)
class Hot:
    """A set of functions in fast RAM, the most executed first; the whole text has none."""
    size: int
    steps: int
    functions: tuple = ()


class Alternatives:
    """Costs are those of a step, beside a step of the program in slow memory. Calls between the two memories are as any other. Where the
    file names no functions, pieces of its text stand in for them."""

    def __init__(self, elf, executed, weights):
        self.text, self.steps = elf.text_bytes, max(sum(executed), 1)
        self.instruction, self.loads = weights.step
        self.load = weights.load
        extents = elf.extents()
        self.named = bool(extents)
        self.functions = functions_of(extents or elf.pieces(), elf, executed)
        self.known = {}

    @property
    def what(self):
        return "functions" if self.named else "pieces of its text"

    def ratio(self, slow):
        """The cost where so many of the steps, of 1, are fetched from slow memory."""
        return (self.instruction + slow * self.loads * self.load) / (self.instruction + self.loads * self.load)

    @property
    def whole(self):
        """With the whole text in fast RAM."""
        return self.ratio(0)

    def hottest(self, room):
        """The best set of functions for so many bytes."""
        if room not in self.known:
            self.known[room] = Hot(self.text, self.steps) if room >= self.text else best_set(self.functions, room)
        return self.known[room]

    def cold(self, room):
        """Of the steps those, of 1, that stay in slow memory with the best set in so many bytes."""
        return 1 - self.hottest(room).steps / self.steps

    def hot(self, room):
        return self.ratio(self.cold(room))

    def least_room(self, cost):
        """The fewest bytes, below those of the text, in which the hottest functions cost less; None where there are none."""
        low, high = 0, self.text
        if self.whole >= cost:
            return None
        while high - low > 4:
            room = (low + high) // 8 * 4
            low, high = (low, room) if self.hot(room) < cost else (room, high)
        return self.hottest(high).size if high < self.text else None

    def even(self, instructions, loads, cold):
        """From how many wait states on a cache costs less, of which a step has so many instructions and slow loads; None for never."""
        spared = self.loads * cold - loads
        return max(0.0, (instructions - self.instruction) / spared) if spared > 0 else None


def functions_of(extents, elf, executed):
    """The functions that are executed, but the one in which the program begins: that stays where the processor begins."""
    begins = [(address - elf.text) // 4 for address, _, _ in extents]
    ends = [*begins[1:], len(executed)]
    steps = [sum(executed[begin:end]) for begin, end in zip(begins, ends)]
    return [Function(name, size, made, address) for (address, size, name), made in zip(extents, steps) if made and not address <= elf.entry < address + size]


def best_set(functions, room):
    """The functions with the most steps that fit into the room: a knapsack, exactly, by the points that no other point beats."""
    ranked = sorted((each for each in functions if each.size <= room), key=lambda each: (-each.steps / each.size, each.name))
    rest = Rest(ranked)
    points, least = [(0, 0, None)], rest.whole(0, room)[1]
    for k, each in enumerate(ranked):
        more = [(size + each.size, steps + each.steps, (each, chosen)) for size, steps, chosen in points if size + each.size <= room]
        points = unbeaten(heapq.merge(points, more, key=lambda point: (point[0], -point[1])))
        least = max(least, max(steps + rest.whole(k + 1, room - size)[1] for size, steps, _ in points))
        points = [point for point in points if point[1] + rest.most(k + 1, room - point[0]) >= least]
    size, steps, chosen = max(points, key=lambda point: (point[1], -point[0]))
    return Hot(size, steps, tuple(sorted(unchained(chosen), key=lambda each: (-each.steps, each.name))))


class Rest:
    """What the functions from one on bring, which stand by their steps for each byte."""

    def __init__(self, ranked):
        self.ranked = ranked
        self.sizes = [0, *itertools.accumulate(each.size for each in ranked)]
        self.steps = [0, *itertools.accumulate(each.steps for each in ranked)]

    def whole(self, first, room):
        """Where those stop that fit one behind the other, and their steps."""
        end = bisect.bisect_right(self.sizes, self.sizes[first] + room) - 1
        return end, self.steps[end] - self.steps[first]

    def most(self, first, room):
        """No set has more steps: the first that doesn't fit is cut."""
        end, whole = self.whole(first, room)
        if end == len(self.ranked):
            return whole
        cut = self.ranked[end]
        return whole + cut.steps * (room - self.sizes[end] + self.sizes[first]) // cut.size


def unbeaten(points):
    """Of points by their sizes those that have more steps than all smaller ones."""
    found, most = [], -1
    for point in points:
        if point[1] > most:
            found.append(point)
            most = point[1]
    return found


def unchained(chosen):
    """The functions of a chain of pairs."""
    while chosen:
        yield chosen[0]
        chosen = chosen[1]
