#!/usr/bin/env python3
"""Times live runs of 2, 4 and 16 callers, of one or more programs in turn, beside the replay of an order that happened.

    benches/live_speed.py PROGRAM [OTHER ..]

A trace has 40,000 calls in all, an equal number for each caller, of one of these kinds: areas; parts of blocks, each caller
on a processor of its own; adds to words of objects; count lines between adds. For each program it prints the seconds that
pass, the least of 9 runs, the processor seconds of that run, and how many of a hundred neighbours in its last order have
different callers. The programs take turns. The replay is that of the first program, on the order of its last live run.
Each live run's report is compared with it.
"""
import os
import resource
import subprocess
import sys
import time

RUNS = 9
CALLS = 40_000


def trace(callers, header, own):
    """A trace whose callers have the lines that `own` gives for the number of each and for a count of calls."""
    lines = ["vmtrace 1", "space 1048576"] + header
    for caller in range(1, callers + 1):
        lines += [f"caller {caller}"] + own(caller, CALLS // callers)
    return lines


def areas(callers):
    """Each area is freed at once."""
    pairs = lambda caller, count: [
        line for number in range(count // 2) for line in (f"vmalloc a{number} {1 + number * 37 % 4999} 4096", f"vfree a{number}")
    ]
    return trace(callers, [f"callers {callers}"], pairs)


def parts(callers):
    """Each part is of a processor that no other caller uses."""
    pairs = lambda caller, count: [
        line for number in range(count // 2) for line in (f"map_ram p{number} {caller - 1} {1 + number % 4}", f"unmap_ram p{number}")
    ]
    return trace(callers, ["block 64 16", "unit 8 1", f"group {callers} 0", f"callers {callers}"], pairs)


def adds(callers):
    """Words of one object of each caller."""
    own = lambda caller, count: ["alloc_percpu o 64 8"] + [f"add o 0 {number % 16} {number % 101}" for number in range(count - 1)]
    return trace(callers, [f"callers {callers}"], own)


def counts(callers):
    """A count line behind each add."""
    own = lambda caller, count: ["alloc_percpu o 64 8"] + [
        line for number in range(count // 2) for line in (f"add o 0 {number % 16} 1", f"count 0 0 {number % 101 - 50}")
    ]
    return trace(callers, [f"callers {callers}", "counters 1 32"], own)


def run(command, text):
    """The output of a command, the seconds that passed, and its processor seconds."""
    before = resource.getrusage(resource.RUSAGE_CHILDREN)
    start = time.perf_counter()
    done = subprocess.run(command, input=text, stdout=subprocess.PIPE, check=True)
    passed = time.perf_counter() - start
    after = resource.getrusage(resource.RUSAGE_CHILDREN)
    return done.stdout, passed, after.ru_utime + after.ru_stime - before.ru_utime - before.ru_stime


def ordered(lines, picks):
    """The trace with these picks."""
    rows = [b"order " + b" ".join(picks[at : at + 64]) for at in range(0, len(picks), 64)]
    return "\n".join(lines).encode() + b"\n" + b"\n".join(rows) + b"\nend\n"


def measure(name, callers, lines, programs):
    text = ("\n".join(lines) + "\nend\n").encode()
    least = {program: (float("inf"), 0.0) for program in programs}
    last = {}
    for _ in range(RUNS):
        for program in programs:
            last[program], passed, used = run([program, "live"], text)
            least[program] = min(least[program], (passed, used))
    cells = []
    for program in programs:
        schedule, report = last[program].split(b"\n", 1)
        picks = schedule.split()[1:]
        changes = sum(one != other for one, other in zip(picks, picks[1:]))
        again, _, _ = run([programs[0], "replay"], ordered(lines, picks))
        if again != report:
            sys.exit(f"{name}, {callers} callers: the replay differs")
        cells.append("%.3f s, %.3f processor, %2.0f of 100" % (*least[program], 100 * changes / max(1, len(picks) - 1)))
        if program == programs[0]:
            replay = min(run([program, "replay"], ordered(lines, picks))[1:] for _ in range(RUNS))
    print(f"{name}, {callers} callers: " + "; ".join(cells) + "; replay %.3f s" % replay[0], flush=True)


def main():
    programs = [os.path.abspath(program) for program in sys.argv[1:]]
    if not programs:
        sys.exit(__doc__)
    for kind in (areas, parts, adds, counts):
        for callers in (2, 4, 16):
            measure(kind.__name__, callers, kind(callers), programs)


main()
