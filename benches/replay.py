#!/usr/bin/env python3
"""Times `vmreplay replay` beside `wc -l` and `sort` of the same file, and beside itself on half the length.

Prints the tables of docs/PERFORMANCE.md. Where the program is missing it says so and measures nothing; another program
than the one that the tests build may be given as the only argument. Times are processor time (user and system) of the
best of 25 runs, and the commands take turns, so that other work on the machine counts little.
"""
import os
import resource
import shutil
import subprocess
import sys
import tempfile
import time

BUILT = os.path.join(os.path.dirname(os.path.abspath(__file__)), "..", "crates", "vmreplay", "out", "vmreplay")
RUNS = 25

# the text that is compared with the next one
FAR = "100,000 calls of vmalloc and vfree, `lazy 0`, hulls of 1,040,384 pages"


def trace(space, call, count):
    """A trace of `count` calls: `call` is formatted with the number of each."""
    lines = ["vmtrace 1", f"space {space}"] + [call(number) for number in range(count)]
    return "\n".join(lines + ["end", ""]).encode()


def frameless(count):
    """Calls for 1 to 4,999 bytes in a large range: the first 877 get an address, and then the frames are short."""
    return trace(1048576, lambda number: f"vmalloc a{number} {1 + number * 37 % 4999} 4096", count)


def gaps(count):
    """Calls with an alignment that leaves a gap after each area: later searches pass 1,024 free blocks that don't fit."""
    return trace(1048576, lambda number: f"vmalloc a{number} 1 16384", count)


def full(count):
    """Calls in a range of 16 pages: all but the first eight end in no-space, after a purge."""
    return trace(16, lambda number: f"vmalloc a{number} 1 1", count)


def callers(count):
    """Calls of 16 callers, an equal number each, with four picks a call: the callers' sections are mixed throughout."""
    lines = ["vmtrace 1", "space 1048576", "callers 16"]
    for caller in range(1, 17):
        lines.append(f"caller {caller}")
        lines += [f"vmalloc a{number} {1 + number * 37 % 4999} 4096" for number in range(caller, count + 1, 16)]
    picks = [1 + place * place * 7 // 5 % 16 for place in range(4 * count)]
    for place in range(0, len(picks), 64):
        lines.append("order " + " ".join(str(pick) for pick in picks[place : place + 64]))
    return "\n".join(lines + ["end", ""]).encode()


def freed(count, lazy):
    """Areas that are made and freed again in a large range: a purge at each free without a limit, none with the largest."""
    lines = ["vmtrace 1", "space 1048576", f"lazy {lazy}"]
    for number in range(count // 2):
        lines += [f"vmalloc a{number} {1 + number * 37 % 4999} 4096", f"vfree a{number}"]
    return "\n".join(lines + ["end", ""]).encode()


def spread(count):
    """Areas that are made and freed again, none of which touches another: half as many gaps as calls, passed by each search."""
    lines = ["vmtrace 1", "space 1048576", "lazy 1048576"]
    for number in range(count // 2):
        lines += [f"vmalloc a{number} 1 16384", f"vfree a{number}"]
    return "\n".join(lines + ["end", ""]).encode()


def far_apart(count, lazy, align):
    """Frees of two callers, picked so that a purge takes one of each. The first caller's areas lie near page 0. The second's
    do so too, or with an alignment of 8,192 pages behind all multiples that the opening has taken, near the end of the
    range. The last call is a purge of what still waits."""
    rounds = (count - 128) // 4
    lines = ["vmtrace 1", "space 1048576", f"lazy {lazy}", "callers 2"]
    lines += [f"vmalloc f{number} 1 {8192 * 4096}" for number in range(127)]
    lines.append("caller 1")
    for number in range(rounds):
        lines += [f"vmalloc a{number} 1 1", f"vfree a{number}"]
    lines.append("caller 2")
    for number in range(rounds):
        lines += [f"vmalloc b{number} 1 {align}", f"vfree b{number}"]
    lines.append("unmap_aliases")
    picks = "1 1 1 2 2 2 1 1 1 2 2 2 1 1 1 1 1 1 2 2 2 2".split() * rounds
    for place in range(0, len(picks), 64):
        lines.append("order " + " ".join(picks[place : place + 64]))
    return "\n".join(lines + ["end", ""]).encode()


def blocks(count):
    """Parts of 1 to 16 pages on four processors: 64 of them live at a time, and the oldest ends as the next one is made."""
    lines = ["vmtrace 1", "space 1048576", "group 4 0"]
    for number in range(count // 2):
        lines.append(f"map_ram r{number} {number % 4} {1 + number * 7 % 16}")
        if number >= 64:
            lines.append(f"unmap_ram r{number - 64}")
    return "\n".join(lines + ["end", ""]).encode()


def aliases(count):
    """Parts that are made and end, and a purge for what they leave after each 8 of them, over 16 processors."""
    lines = ["vmtrace 1", "space 1048576", "group 16 0"]
    for number in range(count * 8 // 17):
        lines += [f"map_ram r{number} {number % 16} {1 + number * 7 % 16}", f"unmap_ram r{number}"]
        if number % 8 == 7:
            lines.append("unmap_aliases")
    return "\n".join(lines + ["end", ""]).encode()


def late_fault(length):
    """A text of `length` bytes. Its last line is the first that cannot stand, and is as long as it takes."""
    text = full(99_999)[: -len("end\n")]
    return text + b"9" * (length - len(text) - 1) + b"\n"


def seconds(command, path):
    """The processor time of one run of `command` with the file as its input."""
    before = resource.getrusage(resource.RUSAGE_CHILDREN)
    with open(path, "rb") as text:
        subprocess.run(command, stdin=text, stdout=subprocess.DEVNULL, stderr=subprocess.DEVNULL, check=False)
    after = resource.getrusage(resource.RUSAGE_CHILDREN)
    return after.ru_utime + after.ru_stime - before.ru_utime - before.ru_stime


def least(runs):
    """The least time of each of these commands, or None where there is no such command. It ends after a minute."""
    times = [[] for _ in runs]
    begun = time.monotonic()
    for _ in range(RUNS):
        for (command, path), own in zip(runs, times):
            if shutil.which(command[0]):
                own.append(seconds(command, path))
        if time.monotonic() - begun > 60:
            break
    return [min(own, default=None) for own in times]


def ratio(time, other):
    return "-" if not other else f"{time / other:.1f}"


def main():
    program = sys.argv[1] if len(sys.argv) > 1 else BUILT
    if shutil.which(program) is None:
        print(f"skipped: there is no {program}")
        return
    texts = [
        ("100,000 calls, nearly all without frames", frameless(50_000), frameless(100_000)),
        ("100,000 calls, nearly all without space", full(50_000), full(100_000)),
        ("100,000 calls past 1,024 gaps", gaps(50_000), gaps(100_000)),
        ("100,000 calls of 16 callers, 400,000 picks", callers(50_000), callers(100_000)),
        ("100,000 calls of vmalloc and vfree, `lazy 0`", freed(50_000, 0), freed(100_000, 0)),
        ("100,000 calls of vmalloc and vfree, `lazy 1048576`", freed(50_000, 1048576), freed(100_000, 1048576)),
        (FAR, far_apart(50_000, 0, 8192 * 4096), far_apart(100_000, 0, 8192 * 4096)),
        ("the same calls near page 0, `lazy 1048576`, one purge", far_apart(50_000, 1048576, 1), far_apart(100_000, 1048576, 1)),
        ("100,000 calls of vmalloc and vfree, 50,000 gaps", spread(50_000), spread(100_000)),
        ("100,000 calls of map_ram and unmap_ram", blocks(50_000), blocks(100_000)),
        ("100,000 calls of map_ram, unmap_ram and unmap_aliases", aliases(50_000), aliases(100_000)),
        ("16 MiB, the fault in the last line", late_fault(8 << 20), late_fault(16 << 20)),
    ]
    print("| Text | seconds | to its half | to the next text | to `wc -l` | to `sort` |")
    print("|---|---|---|---|---|---|")
    with tempfile.TemporaryDirectory() as folder:
        half_path, path, next_path = (os.path.join(folder, name) for name in ("half", "whole", "next"))
        for place, (name, half, whole) in enumerate(texts):
            following = texts[place + 1][2] if name == FAR else b""
            for file_path, text in ((half_path, half), (path, whole), (next_path, following)):
                with open(file_path, "wb") as file:
                    file.write(text)
            replay = [program, "replay"]
            runs = [(replay, path), (replay, half_path), (["wc", "-l"], path), (["sort"], path)]
            if following:
                runs.append((replay, next_path))
            own, halved, lines, sorting, *other = least(runs)
            after = ratio(own, other[0]) if other else ""
            print(f"| {name} | {own:.3f} | {ratio(own, halved)} | {after} | {ratio(own, lines)} | {ratio(own, sorting)} |", flush=True)


if __name__ == "__main__":
    main()
