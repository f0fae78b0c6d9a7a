#!/usr/bin/env python3
"""Steps a second of the source's meaning, on three programs, and what their runs take of memory.

Runs `crates/flexos/out/flexos single`, which `rt run` in crates/flexos builds, on

- a loop of integer work, which is to make at least 5 million steps a second;
- a recursion as deep as 64 pages of stack hold, 8,189 calls of the smallest frame, and one call deeper, which
  has to end as a full stack;
- a million calls one after another.

A step costs 1, and a call the eighth of its frame's bytes more; steps are counted by the cost that the run tells,
less what calls cost beyond 1. The time is the least processor time of some runs, less that of a run of an empty
program.

The host's stack (VmStk in /proc, so it needs Linux) is not to grow by the depth or the number of calls: it stays
below 256 KiB beyond that of the loop.

Usage: meaning_speed.py [ROUNDS]
ROUNDS is how often the loop runs, 1,000,000 if not said.
"""

import resource
import subprocess
import sys
import tempfile
import time
from pathlib import Path

ROOT = Path(__file__).resolve().parent.parent
FLEXOS = ROOT / "crates" / "flexos" / "out" / "flexos"
ROUNDS = 1_000_000
CALLS = 1_000_000
DEEPEST = 8189
RUNS = 3
WANTED = 5e6
MOST_STACK = 256 << 10
BUDGET = 1 << 62

CONFIGURATION = """\
mechanism = "call"
stack_pages = 64
[[library]]
name = "a"
files = ["a.c"]
[[compartment]]
name = "a"
libraries = ["a"]
"""

EMPTY = "void main() { }\n"
LOOP = "long main() {{ long i = 0; long s = 0; while (i < {0}) {{ s = s * 3 + i; i = i + 1; }} return i; }}\n"
# Frames of 32 bytes, the smallest that there are. Each call but the last takes a byte of the input; at its end
# __getc answers all ones, which is -1.
DEEP = "void down() { if (__getc() + 1) down(); }\nvoid main() { down(); }\n"
FLAT = "long more(long a) {{ return a + 1; }}\nlong main() {{ long i = 0; while (i < {0}) {{ i = more(i); }} return i; }}\n"
# A call of `more` has a frame of 64 bytes: 16, a slot of 32 for its parameter, and two pending operands.
FLAT_FRAME = 64
DEEP_FRAME = 32


class Run:
    """One run of a program: its status, its line, its processor time, and the most of its host stack in bytes."""

    def __init__(self, folder, program, given=b""):
        (folder / "a.c").write_text(program)
        (folder / "c.toml").write_text(CONFIGURATION)
        (folder / "input").write_bytes(given)
        before = resource.getrusage(resource.RUSAGE_CHILDREN)
        with open(folder / "input", "rb") as source:
            words = [str(FLEXOS), "single", "c.toml", "--steps", str(BUDGET)]
            run = subprocess.Popen(words, cwd=folder, stdin=source, stdout=subprocess.DEVNULL, stderr=subprocess.PIPE)
            self.stack = self.memory = 0
            while run.poll() is None:
                self.look(run.pid)
                time.sleep(0.005)
        self.line = run.stderr.read().decode().strip()
        self.status = run.returncode
        after = resource.getrusage(resource.RUSAGE_CHILDREN)
        self.seconds = after.ru_utime + after.ru_stime - before.ru_utime - before.ru_stime

    def look(self, process):
        """Looks at the stack and the memory of the run so far; where it is over, there is nothing to see."""
        try:
            for line in Path(f"/proc/{process}/status").read_text().splitlines():
                if line.startswith("VmStk:"):
                    self.stack = max(self.stack, 1024 * int(line.split()[1]))
                if line.startswith("VmHWM:"):
                    self.memory = max(self.memory, 1024 * int(line.split()[1]))
        except (FileNotFoundError, ProcessLookupError):
            pass

    def cost(self, value):
        """What an exit with this value cost."""
        words = self.line.split()
        if self.status != 0 or words[:2] != ["exit", str(value)]:
            sys.exit(f"a run ended with status {self.status} and {self.line!r}, not with exit {value}")
        return int(words[3])


def best(folder, program, given=b""):
    """The quickest of some runs."""
    return min((Run(folder, program, given) for _ in range(RUNS)), key=lambda run: run.seconds)


def main(arguments):
    if len(arguments) > 1:
        sys.exit(__doc__)
    rounds = int(arguments[0]) if arguments else ROUNDS
    if not FLEXOS.exists():
        sys.exit("crates/flexos isn't built: run `rt run` there first")
    good = True
    with tempfile.TemporaryDirectory() as name:
        folder = Path(name)
        start = best(folder, EMPTY).seconds
        loop = best(folder, LOOP.format(rounds))
        speed = loop.cost(rounds) / (loop.seconds - start)
        print(f"a loop of integer work: {speed / 1e6:.1f} million steps a second")
        good &= speed >= WANTED

        deep = best(folder, DEEP, b"x" * (DEEPEST - 2))
        steps = deep.cost(0) - DEEPEST * (DEEP_FRAME // 8)
        print(f"{DEEPEST} calls deep: {steps} steps in {deep.seconds - start:.3f} s")
        deeper = Run(folder, DEEP, b"x" * (DEEPEST - 1))
        if (deeper.status, deeper.line) != (7, "stack full: thread 0 stack common"):
            print(f"one call deeper ended with status {deeper.status} and {deeper.line!r}")
            good = False

        flat = best(folder, FLAT.format(CALLS))
        steps = flat.cost(CALLS) - CALLS * (FLAT_FRAME // 8)
        speed = steps / (flat.seconds - start)
        print(f"{CALLS} calls one after another: {speed / 1e6:.1f} million steps a second, {flat.memory / (1 << 20):.0f} MiB")

        for name, run in [("the recursion", deep), ("the calls", flat)]:
            if run.stack > loop.stack + MOST_STACK:
                print(f"{name} took {run.stack} bytes of the host's stack, and the loop {loop.stack}")
                good = False
    return 0 if good else 1


if __name__ == "__main__":
    sys.exit(main(sys.argv[1:]))
