#!/usr/bin/env python3
"""What the program does on a hostile machine, beside the gate: docs/HOSTILE.md has what came.

    benches/hostile.py [PROGRAM] [PART ..]

Each part prints what it tried, and each run that ended otherwise than docs/REPORT.md says: with an exit code that isn't
stated, with another text, on a signal, or not within thirty seconds. What the machine lacks is skipped, and it says so.
"""
import collections
import fcntl
import os
import random
import re
import resource
import signal
import subprocess
import sys
import tempfile
import termios
import time

TOP = os.path.dirname(os.path.dirname(os.path.abspath(__file__)))
MEGABYTE = 1 << 20
SECONDS = 30
SIZES = [4, 6, 8, 10, 12, 16, 20, 24, 32, 40, 48, 64]
MUTATED = 10_000

Run = collections.namedtuple("Run", "code out said seconds kilobytes")


class Machine:
    """A program, a folder for its files, and how many runs differed."""

    def __init__(self, program, room):
        self.program, self.room, self.differing, self.runs = program, room, 0, 0

    def path(self, name):
        return os.path.join(self.room, name)

    def run(self, words, stdin=b"", stdout=None, stderr=None, limits=(), closed=()):
        """A run over these bytes, or over an open file, into files of this folder or into open ones."""
        self.runs += 1
        if isinstance(stdin, bytes):
            with open(self.path("in"), "wb") as into:
                into.write(stdin)
        child = os.fork()
        if child == 0:
            self.start(words, stdin, stdout, stderr, limits, closed)
        _, status, used = os.wait4(child, 0)
        code = os.WEXITSTATUS(status) if os.WIFEXITED(status) else -os.WTERMSIG(status)
        read = lambda name, file: b"" if file is not None else open(self.path(name), "rb").read()
        seconds = used.ru_utime + used.ru_stime
        return Run(code, read("out", stdout), read("said", stderr), seconds, used.ru_maxrss)

    def start(self, words, stdin, stdout, stderr, limits, closed):
        """The child: its streams and limits, and then the program in its place."""
        into = os.open(self.path("in"), os.O_RDONLY) if isinstance(stdin, bytes) else stdin
        made = os.O_WRONLY | os.O_CREAT | os.O_TRUNC
        out = os.open(self.path("out"), made) if stdout is None else stdout
        said = os.open(self.path("said"), made) if stderr is None else stderr
        for at, stream in enumerate((into, out, said)):
            os.dup2(stream, at)
        for at in closed:
            os.close(at)
        os.closerange(3, 64)
        for number in (signal.SIGPIPE, signal.SIGXFSZ):
            signal.signal(number, signal.SIG_DFL)
        signal.alarm(SECONDS)
        for limit, most in limits:
            resource.setrlimit(limit, (most, most))
        os.execv(self.program, [self.program, *words])

    def differs(self, what, run, wanted):
        self.differing += 1
        print(f"  {what}: code {run.code}, {len(run.out)} bytes out, said {run.said[:80]!r}; wanted {wanted}")

    def check(self, what, run, code, text):
        """A run must have ended with this code and this text."""
        if (run.code, run.out) != (code, text):
            self.differs(what, run, f"code {code} and {len(text)} bytes")


def is_stated(run, word):
    """Whether the code is one that docs/REPORT.md has, with the text that it has for it."""
    begin = {"live": b"schedule", "make": b"vmtrace 1\n"}.get(word, b"vmreport 1\n")
    if run.code == 0:
        return run.out.startswith(begin) and run.out.endswith(b"\nend\n") and not run.said
    if run.said.count(b"\n") > 3 and run.code != 2:
        return False
    if run.code == 1:
        return re.fullmatch(rb"fault (line \d+|layout (no-cpu|groups|wide) \d+|layout overlap \d+ \d+)\n", run.out) is not None
    texts = {2: b"fault usage\n", 3: b"", 4: b"", 6: b"fault length\n"}
    return texts.get(run.code) == run.out


def example(name):
    with open(os.path.join(TOP, "examples", f"{name}.trace"), "rb") as file:
        return file.read()


def traces(machine):
    """Traces that take little memory, and such as take much."""
    header = b"vmtrace 1\nspace 1048576\n"
    return {
        "two areas": example("first"),
        "few frames": b"vmtrace 1\nspace 16\nframes 4\nvmalloc a 1 1\nend\n",
        "callers": example("callers"),
        "objects": example("objects"),
        "every page": header + b"vmalloc a 1 4294967296\nend\n",
        "every frame": header + b"frames 8192\nvmalloc a 33554432 1\nend\n",
        "a generated trace": machine.run(["make", "7", "20000"]).out,
        "the most picks": header + (b"order" + b" 1" * 64 + b"\n") * 125_000 + b"end\n",
    }


def memory(machine):
    """The address space has a limit."""
    given = [([word], text, f"{word}, {name}") for name, text in traces(machine).items() for word in ("replay", "audit", "live")]
    given.append((["make", "7", "100000"], b"", "make 7 100000"))
    for size in SIZES:
        codes = collections.Counter()
        for words, text, what in given:
            run = machine.run(words, text, limits=[(resource.RLIMIT_AS, size * MEGABYTE)])
            if run.code == 127 and b"loading shared libraries" in run.said:
                codes["not loaded"] += 1
                continue
            codes[run.code] += 1
            whole = words[0] == "live" or run.out == machine.run(words, text).out
            if run.code not in (0, 3) or not is_stated(run, words[0]) or (run.code == 0 and not whole):
                machine.differs(f"{what} in {size} MB", run, "code 0 with the whole text, or 3 with none")
        print(f"  {size} MB: " + ", ".join(f"{count} with {code}" for code, count in sorted(codes.items(), key=str)))


def descriptors(machine):
    """A program that has begun to read may open no file any more."""
    for word in ("replay", "audit", "live"):
        wanted = machine.run([word], example("first"))
        program = subprocess.Popen([machine.program, word], stdin=subprocess.PIPE, stdout=subprocess.PIPE, stderr=subprocess.PIPE)
        text = example("first")
        os.write(program.stdin.fileno(), text[:1])
        while fcntl.ioctl(program.stdin, termios.FIONREAD, b"\0" * 4) != b"\0" * 4:
            time.sleep(0.01)
        resource.prlimit(program.pid, resource.RLIMIT_NOFILE, (0, 0))
        out, said = program.communicate(text[1:], timeout=SECONDS)
        machine.check(word, Run(program.returncode, out, said, 0, 0), wanted.code, wanted.out)
        machine.runs += 1


def closed(machine):
    """Any of the standard streams are closed."""
    for streams in ([at for at in range(3) if subset >> at & 1] for subset in range(8)):
        for words in (["replay"], ["audit"], ["live"], ["make", "0", "1"], ["help"]):
            for text in (example("first"), b"no trace\n"):
                wanted = machine.run(words, text)
                run = machine.run(words, text, closed=streams)
                code = 4 if 0 in streams and len(words) == 1 and words != ["help"] else 5 if 1 in streams else wanted.code
                machine.check(f"{' '.join(words)} without {streams}", run, code, b"" if code in (4, 5) else wanted.out)


def full(machine):
    """There is no room for what is written."""
    words, text = ["replay"], machine.run(["make", "7", "5000"]).out
    wanted = machine.run(words, text)
    if os.path.exists("/dev/full"):
        device = os.open("/dev/full", os.O_WRONLY)
        machine.check("a full device", machine.run(words, text, stdout=device), 5, b"")
        machine.check("a full device for what is said", machine.run(words, b"", stderr=device), 1, b"fault line 1\n")
        machine.check("a full device for both", machine.run(words, b"", stdout=device, stderr=device), 5, b"")
        os.close(device)
    disk = machine.path("disk")
    os.mkdir(disk)
    for size in (4096, 65_536):
        if subprocess.run(["mount", "-t", "tmpfs", "-o", f"size={size}", "none", disk], capture_output=True).returncode:
            print("  no small disk could be mounted")
            return
        file = os.path.join(disk, "report")
        out = os.open(file, os.O_RDWR | os.O_CREAT)
        run = machine.run(words, text, stdout=out)
        taken = os.pread(out, 2 * size, 0)
        os.close(out)
        subprocess.run(["umount", disk], check=True)
        if run.code != 5 or not wanted.out.startswith(taken):
            machine.differs(f"a disk of {size} bytes", run, "code 5 and a prefix")
        print(f"  a disk of {size} bytes took {len(taken)} of {len(wanted.out)}")


def narrow(machine):
    """The stack is small, or a file may have few bytes, which ends the program on a signal."""
    for size in (64, 128, 256):
        for words, text in ((["replay"], example("counters")), (["live"], example("callers")), (["make", "7", "100000"], b"")):
            run = machine.run(words, text, limits=[(resource.RLIMIT_STACK, size << 10)])
            if run.code != 0 or not is_stated(run, words[0]):
                machine.differs(f"{words} on a stack of {size} KB", run, "code 0 with the whole text")
    words = ["make", "7", "1000"]
    wanted = machine.run(words).out[:4096]
    machine.check("a file of 4,096 bytes", machine.run(words, limits=[(resource.RLIMIT_FSIZE, 4096)]), -signal.SIGXFSZ, wanted)


def endless(machine):
    """What is read never ends, or never comes, or is no file."""
    folder = os.open(machine.room, os.O_RDONLY)
    machine.check("a directory", machine.run(["replay"], folder), 4, b"")
    os.close(folder)
    machine.check("16,777,216 bytes", machine.run(["replay"], b"\0" * 16_777_216), 1, b"fault line 1\n")
    machine.check("a byte more", machine.run(["replay"], b"\0" * 16_777_217), 6, b"fault length\n")
    for name in ("/dev/zero", "/dev/urandom"):
        device = os.open(name, os.O_RDONLY)
        run = machine.run(["replay"], device)
        os.close(device)
        machine.check(name, run, 6, b"fault length\n")
        print(f"  {name}: {run.seconds:.2f} s, {run.kilobytes / 1000:.0f} MB")
    writer = subprocess.Popen(["yes", "order 1"], stdout=subprocess.PIPE)
    run = machine.run(["live"], writer.stdout.fileno())
    writer.kill()
    machine.check("lines without an end", run, 6, b"fault length\n")
    silent = subprocess.Popen([machine.program, "replay"], stdin=subprocess.PIPE, stdout=subprocess.PIPE)
    silent.stdin.write(example("first")[:-4])
    silent.stdin.flush()
    time.sleep(1)
    if silent.poll() is not None:
        machine.differs("a writer that stays silent", Run(silent.returncode, b"", b"", 0, 0), "a program that waits")
    silent.kill()
    machine.check("a long word", machine.run(["x" * 100_000]), 2, b"fault usage\n")
    machine.check("many words", machine.run(["replay"] * 20_000), 2, b"fault usage\n")


def early(machine):
    """A pipe closes early: at each byte of what is read, and behind each byte of what is written."""
    for name in ("first", "counters", "purge"):
        text = example(name)
        for cut in range(len(text)):
            line = text[:cut].count(b"\n") + 1
            machine.check(f"{name} cut at {cut}", machine.run(["replay"], text[:cut]), 1, b"fault line %d\n" % line)
    text = machine.run(["make", "7", "1500"]).out
    for words, given in ((["replay"], text), (["replay"], example("first")), (["make", "7", "1500"], b"")):
        wanted = machine.run(words, given).out
        for taken in range(0, len(wanted), max(1, len(wanted) // 200)):
            code, got = read_in_part(machine, words, given, taken)
            if code not in (0, 5) or got != wanted[:taken] or (code == 0 and len(wanted) > 4096 + taken):
                machine.differs(f"{words} read up to {taken}", Run(code, got, b"", 0, 0), "code 5, or 0 where a pipe holds the rest")


def read_in_part(machine, words, given, taken):
    """The code of a run from whose pipe so many bytes are read, and these bytes."""
    machine.runs += 1
    with open(machine.path("in"), "wb") as into:
        into.write(given)
    reader, writer = os.pipe()
    fcntl.fcntl(writer, fcntl.F_SETPIPE_SZ, 4096)
    with open(machine.path("in"), "rb") as into:
        program = subprocess.Popen([machine.program, *words], stdin=into, stdout=writer, stderr=subprocess.DEVNULL)
    os.close(writer)
    got = b""
    while len(got) < taken and (piece := os.read(reader, taken - len(got))):
        got += piece
    os.close(reader)
    return program.wait(timeout=SECONDS), got


def bases(machine):
    """Texts to be mutated: the examples, the worked cases of the tests, and generated traces."""
    texts = [example(name[:-6]) for name in sorted(os.listdir(os.path.join(TOP, "examples"))) if name.endswith(".trace")]
    data = os.path.join(TOP, "crates/tests_traces/data")
    for name in sorted(os.listdir(data)):
        if name.endswith(".cases"):
            with open(os.path.join(data, name), "rb") as file:
                for case in file.read().split(b"== ")[1:]:
                    texts.append(case.split(b"\n", 1)[1].split(b"--\n")[0])
    return texts + [machine.run(["make", str(start), "200"]).out for start in range(10)]


def mutated_text(draw, texts):
    """A text with up to four changes: bytes flipped, a cut, a part doubled, another text joined."""
    text = bytearray(draw.choice(texts))
    for _ in range(draw.randint(1, 4)):
        low, high = sorted(draw.randint(0, len(text)) for _ in range(2))
        kind = draw.randrange(5)
        if kind == 0 and text:
            for _ in range(draw.randint(1, 8)):
                text[draw.randrange(len(text))] ^= 1 << draw.randrange(8)
        elif kind == 1:
            del text[low:high]
        elif kind == 2:
            text[high:high] = text[low:high] * draw.randint(1, 3)
        elif kind == 3:
            text[low:] = draw.choice(texts)
        elif text:
            number = b"%d" % draw.choice([0, 1, 64, 65, 8192, 100_000, 1_048_576, 2**31, 2**32, 9_999_999_999])
            text = bytearray(re.sub(rb"\d+", lambda found: number if draw.random() < 0.05 else found[0], bytes(text)))
    return bytes(text)


def mutated(machine):
    """Traces with bytes flipped, cut, doubled, joined, and with other numbers."""
    draw, texts, codes = random.Random(28), bases(machine), collections.Counter()
    slowest = largest = 0
    for number in range(MUTATED):
        word = draw.choice(["replay", "audit", "live"])
        text = mutated_text(draw, texts)
        run = machine.run([word], text)
        codes[run.code] += 1
        slowest, largest = max(slowest, run.seconds), max(largest, run.kilobytes)
        if run.code not in (0, 1) or not is_stated(run, word):
            machine.differs(f"{word} of mutated trace {number}", run, "a report or a fault line")
    print(f"  {dict(codes)}, at most {slowest:.2f} s and {largest / 1000:.0f} MB")


PARTS = [memory, descriptors, closed, full, narrow, endless, early, mutated]


def main():
    words = sys.argv[1:]
    program = words.pop(0) if words and "/" in words[0] else os.path.join(TOP, "crates/vmreplay/out/vmreplay")
    if not os.access(program, os.X_OK):
        sys.exit(f"skipped: there is no {program}")
    with tempfile.TemporaryDirectory() as room:
        machine = Machine(os.path.abspath(program), room)
        for part in PARTS:
            if words and part.__name__ not in words:
                continue
            before = machine.runs
            print(f"{part.__name__}: {part.__doc__}", flush=True)
            part(machine)
            print(f"  {machine.runs - before} runs", flush=True)
        print(f"{machine.differing} differ")
        sys.exit(1 if machine.differing else 0)


main()
