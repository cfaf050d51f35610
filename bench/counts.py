"""Instructions of the computer that built programs take, counted by valgrind: counts.py PROGRAM..

A step: between the 10^6th and the 3 * 10^6th of each guest; where blocks are copied all the time, between the 10^5th and the 10^6th. A step of
`trace` and `prefetch` and an event of `share`: between the 10^5th and the 3 * 10^5th. A miss, with all that follows it: the second 10^6 steps of
guests/mix.elf through a small cache, less what they take through one in which each block stays, by the misses among them. The output: a row a
machine, a column a guest, in the order of GUESTS and THRASHING."""
import re
import subprocess
import sys

GUESTS = ["bench/loop.elf", "guests/mix.elf", "bench/calls.elf", "bench/memory.elf"]
THRASHING = ["guests/kinds/control.elf", "guests/kinds/sorting.elf"]
ELEVEN = [512, 1024, 1536, 2048, 3072, 4096, 6144, 8192, 10240, 12288, 16384]
SIXTY_FOUR = [256 * size for size in range(1, 65)]
MACHINES = {
    "plain": ["plain"],
    "cached 4096": ["cached", "--cache", "4096", "--block", "64"],
    "cached 1024": ["cached", "--cache", "1024", "--block", "32"],
    "survey 11": ["survey", *map(str, ELEVEN), "--block", "32"],
    "survey 64": ["survey", *map(str, SIXTY_FOUR), "--block", "32"],
}
STEPWISE = [
    ["trace", "bench/loop.elf"],
    ["trace", "bench/loop.elf", "--last"],
    ["prefetch", "bench/loop.elf", "--rate", "1"],
    ["prefetch", "bench/calls.elf", "--rate", "1"],
    ["prefetch", "bench/loop.elf", "--rate", "4"],
    ["share", "bench/loop.elf", "bench/calls.elf"],
    ["share", "bench/calls.elf", "bench/memory.elf", "--cache", "256", "--block", "16"],
]
SMALL = [(128, 32), (256, 32), (256, 64)]
COUNTING = ["valgrind", "--tool=cachegrind", "--cache-sim=no", "--cachegrind-out-file=/dev/null"]
MILLION = 1_000_000
START = 100_000


def run(words, steps, before=()):
    limit = "--events" if words[1] == "share" else "--steps"
    return subprocess.run([*before, *words, limit, str(steps)], stdin=subprocess.DEVNULL, capture_output=True, text=True, errors="replace")


def instructions(words, steps):
    return int(re.search(r"I\s+refs:\s+([\d,]+)", run(words, steps, COUNTING).stderr)[1].replace(",", ""))


def misses(words, steps):
    return int(re.search(r"misses (\d+)", run([*words, "--stats"], steps).stdout)[1])


def between(count, words, first, last):
    return count(words, last) - count(words, first)


def print_steps(program):
    for machine, (command, *options) in MACHINES.items():
        each = (between(instructions, [program, command, guest, *options], MILLION, 3 * MILLION) / (2 * MILLION) for guest in GUESTS)
        print(f"{machine:12}", *(f"{count:6.1f}" for count in each), f"  {program}", flush=True)


def print_thrashing(program):
    for machine in ("plain", "cached 1024", "survey 11", "survey 64"):
        command, *options = MACHINES[machine]
        each = (between(instructions, [program, command, guest, *options], START, MILLION) / (MILLION - START) for guest in THRASHING)
        print(f"{machine:12}", *(f"{count:6.1f}" for count in each), "  where it thrashes", flush=True)


def print_stepwise(program):
    for words in STEPWISE:
        each = between(instructions, [program, *words], START, 3 * START) / (2 * START)
        print(f"{each:6.1f}  {' '.join(words)}", flush=True)


def print_misses(program):
    for cache, block in SMALL:
        words = [program, "cached", "guests/mix.elf", "--block", str(block), "--cache"]
        small, large = (between(instructions, [*words, str(size)], MILLION, 2 * MILLION) for size in (cache, 65536))
        missed = between(misses, [*words, str(cache)], MILLION, 2 * MILLION)
        print(f"{cache} bytes, blocks of {block}: a miss {(small - large) / missed:.0f}, a step {small / MILLION:.1f}, {missed} misses", flush=True)


for program in sys.argv[1:]:
    print_steps(program)
    print_thrashing(program)
    print_stepwise(program)
    print_misses(program)
