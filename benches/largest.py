#!/usr/bin/env python3
"""The largest traces that the grammar allows, one of each kind: how long the program takes over them, and how much memory.

    benches/largest.py [PROGRAM] [KIND ..]

Each kind goes to a limit of docs/TRACE.md: calls, bytes, picks, names, callers, processors, frames, pages, counters. Prints
for each kind and each word the exit code, the processor's seconds, the most memory that was resident, and the sizes of the
trace and of the report. A run that ends with another code than 0, takes more than ten seconds of a processor or more than
128 MB is marked.
"""
import os
import resource
import sys
import tempfile

TOP = os.path.dirname(os.path.dirname(os.path.abspath(__file__)))
CALLS = 100_000
MOST_BYTES = 16_777_216
SECONDS, MEGABYTES = 10, 128


def trace(header, lines, space=1_048_576):
    return "\n".join(["vmtrace 1", f"space {space}", *header, *lines, "end", ""])


def repeated(lines, count):
    """The lines again and again, `count` in all; {} is the number of the round."""
    rounds = -(-count // len(lines))
    return [line.format(n) for n in range(rounds) for line in lines][:count]


def in_callers(lines, callers=16):
    """Lines for each caller, in all as many as are given."""
    share = lines[: len(lines) // callers]
    return [line for c in range(1, callers + 1) for line in [f"caller {c}", *share]]


def padded(header, lines):
    """A trace with as many picks behind its lines as its bytes allow."""
    text = trace(header, lines)
    room = (MOST_BYTES - len(text)) // (6 + 2 * 64)
    return trace(header, lines + ["order" + " 1" * 64] * room)


# sixty-four processors, in units of eight pages
WIDE = ["frames 8192", "block 8 4", "group 64 0"]


def areas():
    return trace(["frames 8192"], [f"vmalloc a{n:011} 1 1" for n in range(CALLS)])


def areas_freed():
    return trace(["frames 8192", "lazy 1048576"], repeated(["vmalloc a{0} 1 1", "vfree a{0}"], CALLS))


def areas_with_holes():
    return trace(["frames 8192", "lazy 1048576"], repeated(["vmalloc a{0} 1 16384", "vfree a{0}"], CALLS))


def areas_purged_each():
    return trace(["lazy 0", "group 64 0"], repeated(["vmalloc a{0} 1 1", "vfree a{0}"], CALLS))


def no_space():
    return trace(["group 64 0"], repeated(["vmalloc a{0} 4294967295 1"], CALLS), space=1_048_576)


def wide_areas():
    return trace(["frames 8192"], repeated(["vmalloc a{0} 33554432 1", "vfree a{0}"], CALLS))


def parts():
    return trace(WIDE, repeated(["map_ram a{0} 63 1"], CALLS))


def parts_unmapped():
    return trace(WIDE, repeated(["map_ram a{0} 63 4", "unmap_ram a{0}"], CALLS))


def dirty_blocks():
    # blocks of eight parts, of which one lives on
    block = [f"map_ram {letter}{{0}} 0 1" for letter in "abcdefgh"]
    ends = [f"unmap_ram {letter}{{0}}" for letter in "abcdefg"]
    made = repeated(block + ends, 45_000)
    return trace(WIDE, made + ["unmap_aliases"] * (CALLS - len(made)))


def aliases():
    return trace(WIDE, ["unmap_aliases"] * CALLS)


def objects():
    return trace(["frames 8192"], [f"alloc_percpu a{n:011} 4 4" for n in range(CALLS)])


def objects_of_all_processors():
    return trace(["frames 8192", "group 64 0"], repeated(["alloc_percpu a{0} 32 4", "free_percpu a{0}"], CALLS))


def objects_freed_in_turn():
    made = repeated(["alloc_percpu a{0} 8 4"], CALLS // 2)
    freed = [f"free_percpu a{n}" for n in range(0, CALLS // 2, 2)]
    again = repeated(["alloc_percpu b{0} 16 16"], CALLS - len(made) - len(freed))
    return trace(["frames 8192"], made + freed + again)


def objects_without_a_fit():
    # an object at the start of each page, so that no other page-aligned one fits beside it
    made = repeated(["alloc_percpu a{0} 4 4096"], 8192)
    return trace(["frames 8192", "unit 64 1"], made + repeated(["alloc_percpu b{0} 4092 4096"], CALLS - len(made)))


def many_chunks():
    made = repeated(["alloc_percpu a{0} 16388 4"], 1638)
    return trace(["frames 8192"], made + repeated(["alloc_percpu b{0} 16388 4"], CALLS - len(made)))


def many_chunks_of_groups():
    groups = [f"group 1 {8 * n}" for n in range(8)]
    return trace(["frames 8192", *groups], repeated(["alloc_percpu a{0} 16388 4"], CALLS))


def atomic_objects():
    return trace(["frames 8192"], ["alloc_percpu p 32768 4", "free_percpu p"] + repeated(["alloc_atomic a{0} 4 4"], CALLS - 2))


def sums():
    return trace(["frames 8192", "group 64 0"], ["alloc_percpu a 32768 4"] + repeated(["add a 63 8191 -2147483648", "sum a 8191"], CALLS - 1))


def balances():
    return trace(["frames 8192", "group 64 0"], repeated(["alloc_percpu a{0} 4 4", "balance", "free_percpu a{0}", "balance"], CALLS))


def counts():
    return trace(["group 64 0", "counters 256 1"], repeated(["count 255 63 -2147483648"], CALLS))


def kept_counts():
    return trace(["group 64 0", "counters 256 1000000"], [f"count {n % 256} {n // 256 % 64} -1" for n in range(CALLS)])


def callers_in_turn():
    return trace(["callers 16"], in_callers(repeated(["vmalloc a{0} 1 1", "vfree a{0}"], CALLS)))


def callers_with_picks():
    lines = in_callers(repeated(["vmalloc a{0} 1 1", "vfree a{0}"], CALLS))
    text = trace(["callers 16"], lines)
    line = "order" + "".join(f" {1 + n % 16}" for n in range(64))
    room = (MOST_BYTES - len(text)) // (len(line) + 1)
    return trace(["callers 16"], lines + [line] * room)


def callers_of_all_processors():
    return trace([*WIDE, "callers 16"], in_callers(["unmap_aliases"] * CALLS))


def targets_of_the_opening():
    opening = [f"vmalloc a{n:011} 1 1" for n in range(CALLS // 2)]
    freed = [f"vfree 0.a{n:011}" for n in range(CALLS // 2)]
    return trace(["frames 8192", "callers 16"], opening + ["caller 16"] + freed)


def adds_to_every_cell():
    """Objects on all frames, and lines that add to both halves of each frame's cells."""
    places = [(o, cpu, 512 * half) for o in range(16) for cpu in range(64) for half in range(16)]
    return [f"alloc_percpu a{o} 32768 4" for o in range(16)] + ["add a{} {} {} 1".format(*place) for place in places]


def every_cell():
    return trace([*WIDE], adds_to_every_cell())


def all_at_once():
    opening = adds_to_every_cell()
    return padded([*WIDE, "callers 16"], opening + in_callers(["unmap_aliases"] * (CALLS - len(opening))))


def picks():
    return padded([], [])


def lines_of_picks():
    header = "vmtrace 1\nspace 4\norder 1 1\n"
    return header + "order 1\n" * ((MOST_BYTES - len(header) - 4) // 8) + "end\n"


def one_line():
    return "vmtrace 1\nspace 4\n" + "o" * (MOST_BYTES - 18)


def empty_lines():
    return "\n" * MOST_BYTES


def zeros():
    return "\0" * MOST_BYTES


def groups_of_bad_lines():
    return "vmtrace 1\nspace 4\n" + "group 1 0\n" * ((MOST_BYTES - 18) // 10)


KINDS = [
    areas, areas_freed, areas_with_holes, areas_purged_each, no_space, wide_areas, parts, parts_unmapped, dirty_blocks,
    aliases, objects, objects_of_all_processors, objects_freed_in_turn, objects_without_a_fit, many_chunks,
    many_chunks_of_groups, atomic_objects, sums, balances, counts, kept_counts, callers_in_turn, callers_with_picks,
    callers_of_all_processors, targets_of_the_opening, every_cell, all_at_once, picks, lines_of_picks, one_line, empty_lines, zeros,
    groups_of_bad_lines,
]
NO_TRACES = {one_line, empty_lines, zeros, groups_of_bad_lines}


def run(program, words, source, room):
    """The exit code, the processor's seconds, the most resident kilobytes, and the bytes written."""
    with open(source, "rb") as into, open(os.path.join(room, "out"), "wb") as out, open(os.devnull, "wb") as said:
        child = os.fork()
        if child == 0:
            for at, stream in enumerate((into, out, said)):
                os.dup2(stream.fileno(), at)
            resource.setrlimit(resource.RLIMIT_CPU, (120, 120))
            os.execv(program, [program, *words])
        _, status, used = os.wait4(child, 0)
    code = os.WEXITSTATUS(status) if os.WIFEXITED(status) else -os.WTERMSIG(status)
    return code, used.ru_utime + used.ru_stime, used.ru_maxrss, os.path.getsize(os.path.join(room, "out"))


def main():
    words = sys.argv[1:]
    program = words.pop(0) if words and "/" in words[0] else os.path.join(TOP, "crates/vmreplay/out/vmreplay")
    if not os.access(program, os.X_OK):
        sys.exit(f"skipped: there is no {program}")
    beyond = 0
    with tempfile.TemporaryDirectory() as room:
        source = os.path.join(room, "trace")
        for kind in KINDS:
            if words and kind.__name__ not in words:
                continue
            with open(source, "w", encoding="latin-1") as into:
                into.write(kind())
            size, wanted = os.path.getsize(source), 1 if kind in NO_TRACES else 0
            assert size <= MOST_BYTES, kind.__name__
            for word in ("replay", "audit", "live"):
                code, seconds, most, written = run(program, [word], source, room)
                mark = "" if code == wanted and seconds <= SECONDS and most <= MEGABYTES * 1000 else "  <--"
                beyond += bool(mark)
                print(f"{kind.__name__} {word}: code {code}, {seconds:.2f} s, {most / 1000:.0f} MB, "
                      f"{size:,} bytes in, {written:,} out{mark}", flush=True)
    print(f"{beyond} beyond {SECONDS} s, {MEGABYTES} MB or with another code")
    sys.exit(1 if beyond else 0)


main()
