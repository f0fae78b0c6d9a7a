#!/usr/bin/env python3
"""How good the emitted code is: ten programs, as this compiler builds them and as gcc -O0 does.

For each program in `bench/programs` it prints

- the turns of the machine that its image makes from start to exit (`flexos exec`),
- what its source costs (`flexos single`), and turns for each unit of cost,
- the instructions that gcc's code executes from `main`'s call to its return (counted by valgrind's
  callgrind, so the figure is the same on each run), and turns for each of those,
- millions of turns a second of `flexos run` on its image, by the processor time of repeated runs
  less that of a run of one turn.

All three must give the same value. Wanted: a geometric mean of at most 1.8 turns for each of gcc's
instructions and none above 2.3, and at most 1.2 turns for each unit of cost on average. The exit
status is 0 where the values agree and the limits hold, 1 where not, 2 where a tool is missing.

It needs the proved program (`./flexos` makes it), gcc and valgrind.

Usage: emitted_code.py [PROGRAM]
PROGRAM is the executable, `crates/flexos/out/flexos` if not said.
"""

import math
import re
import resource
import shutil
import subprocess
import sys
import tempfile
from pathlib import Path

HERE = Path(__file__).resolve().parent
FLEXOS = HERE.parent / "crates" / "flexos" / "out" / "flexos"
CONF = """mechanism = "call"

[[library]]
name = "program"
files = ["program.c"]

[[compartment]]
name = "all"
libraries = ["program"]
"""
MEAN, MOST, FOR_COST = 1.8, 2.3, 1.2
BUDGET = "2000000000"


def said(words, folder):
    """What a command writes on its error stream."""
    done = subprocess.run(words, cwd=folder, capture_output=True, text=True, stdin=subprocess.DEVNULL)
    return done.stderr.strip()


def ended(line):
    """The value and the count of a line `exit V in N turns` or `exit V in K steps`."""
    found = re.fullmatch(r"exit (-?\d+) in (\d+) (?:turns|steps)", line)
    if not found:
        sys.exit(f"not an exit: {line}")
    return int(found[1]), int(found[2])


def of_gcc(source, folder):
    """The value that gcc's code gives, and how many instructions it executes for it."""
    text = re.sub(r"\bmain\b", "flexos_main", source.read_text())
    tail = '\nint main(void) { printf("%ld\\n", (long)flexos_main()); return 0; }\n'
    (folder / "gcc.c").write_text("#include <stdio.h>\n" + text + tail)
    subprocess.run(["gcc", "-std=gnu11", "-w", "-O0", "-fwrapv", "-o", "gcc", "gcc.c"], cwd=folder, check=True)
    counted = ["valgrind", "--tool=callgrind", "--toggle-collect=flexos_main", "--callgrind-out-file=counts"]
    done = subprocess.run([*counted, "./gcc"], cwd=folder, capture_output=True, text=True, check=True)
    return int(done.stdout), int(re.search(r"Collected : (\d+)", done.stderr)[1])


def seconds(words, folder):
    """The processor time of a command."""
    before = resource.getrusage(resource.RUSAGE_CHILDREN)
    subprocess.run(words, cwd=folder, capture_output=True, stdin=subprocess.DEVNULL)
    after = resource.getrusage(resource.RUSAGE_CHILDREN)
    return after.ru_utime + after.ru_stime - before.ru_utime - before.ru_stime


def speed(flexos, turns, folder):
    """Turns a second of an image: the least of some runs, less the least of runs of one turn."""
    whole = min(seconds([flexos, "run", "program.img", "--steps", BUDGET], folder) for _ in range(5))
    start = min(seconds([flexos, "run", "program.img", "--steps", "1"], folder) for _ in range(5))
    return turns / max(whole - start, 1e-6)


def measured(flexos, source):
    """A row of the table, and whether the values agree."""
    with tempfile.TemporaryDirectory() as it:
        folder = Path(it)
        shutil.copy(source, folder / "program.c")
        (folder / "conf.toml").write_text(CONF)
        value, turns = ended(said([flexos, "exec", "conf.toml", "program.img", "--steps", BUDGET], folder))
        meant, cost = ended(said([flexos, "single", "conf.toml", "--steps", BUDGET], folder))
        native, instructions = of_gcc(source, folder)
        return turns, cost, instructions, speed(flexos, turns, folder), value == meant == native


def mean(numbers):
    return math.exp(sum(map(math.log, numbers)) / len(numbers))


def main():
    flexos = str(Path(sys.argv[1] if len(sys.argv) > 1 else FLEXOS).resolve())
    for tool in ("gcc", "valgrind", flexos):
        if not shutil.which(tool):
            print(f"{tool} isn't there")
            return 2
    rows, agree = [], True
    print(f"{'program':<12} {'turns':>11} {'cost':>11} {'gcc -O0':>11} {'to cost':>8} {'to gcc':>7} {'M turns/s':>10}")
    for source in sorted((HERE / "programs").glob("*.c")):
        turns, cost, instructions, rate, same = measured(flexos, source)
        agree = agree and same
        rows.append((turns / cost, turns / instructions))
        print(
            f"{source.stem:<12} {turns:>11,} {cost:>11,} {instructions:>11,} {turns / cost:>8.2f} "
            f"{turns / instructions:>7.2f} {rate / 1e6:>10.1f}{'' if same else '  DIFFERENT VALUES'}"
        )
    to_cost, to_gcc = mean([it[0] for it in rows]), mean([it[1] for it in rows])
    most = max(it[1] for it in rows)
    print(f"geometric means: {to_cost:.2f} turns for a unit of cost, {to_gcc:.2f} for an instruction of gcc's; most {most:.2f}")
    return 0 if agree and to_gcc <= MEAN and most <= MOST and to_cost <= FOR_COST else 1


if __name__ == "__main__":
    sys.exit(main())
