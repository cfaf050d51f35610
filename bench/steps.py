"""Nanoseconds a step of built programs: steps.py SECONDS PROGRAM..

The first 4,000,000 steps of each guest on each machine by each program, in turn for so many seconds; the best of each counts, less the
best of a run of no steps. Short runs meet the quiet moments of a machine that others share, where whole runs don't. Behind a time stands
how often it is that of `plain`, and, of a program behind the first, how many times as fast it is as that one."""
import itertools
import subprocess
import sys
import time

SECONDS, PROGRAMS, STEPS = float(sys.argv[1]), sys.argv[2:], 4_000_000
GUESTS = ["bench/loop.elf", "guests/mix.elf", "bench/calls.elf", "bench/memory.elf"]
MACHINES = {
    "plain": ["plain"],
    "cached 4096": ["cached", "--cache", "4096", "--block", "64"],
    "cached 1024": ["cached", "--cache", "1024", "--block", "32"],
    "ring 4096": ["cached", "--ring", "--cache", "4096", "--block", "64"],
    "ring 1024": ["cached", "--ring", "--cache", "1024", "--block", "32"],
    "one slot": ["cached", "--cache", "128", "--block", "32"],
}


def took(program, guest, machine, steps):
    command, *options = MACHINES[machine]
    words = [program, command, guest, *options, "--steps", str(steps)]
    begin = time.perf_counter()
    subprocess.run(words, stdin=subprocess.DEVNULL, stdout=subprocess.DEVNULL, stderr=subprocess.DEVNULL)
    return time.perf_counter() - begin


best, rounds, end = {}, 0, time.time() + SECONDS
while time.time() < end or not rounds:
    rounds += 1
    for key in itertools.product(GUESTS, MACHINES, PROGRAMS, (0, STEPS)):
        guest, machine, program, steps = key
        best[key] = min(best.get(key, 1e9), took(program, guest, machine, steps))


def step(guest, machine, program):
    return (best[guest, machine, program, STEPS] - best[guest, machine, program, 0]) / STEPS * 1e9


for guest, machine, program in itertools.product(GUESTS, MACHINES, PROGRAMS):
    ns = step(guest, machine, program)
    ratio = ns / step(guest, "plain", program)
    gain = step(guest, machine, PROGRAMS[0]) / ns
    print(f"{guest:18} {machine:12} {ns:6.2f} ns {ratio:5.2f} of plain {gain:5.2f} times as fast  {program}")
print(rounds, "rounds")
