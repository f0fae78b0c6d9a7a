#!/usr/bin/env python3
"""Turns a second of the machine, under `call` and under `light`, against plain Rust, and the memory of a run.

Builds `crates/fx_machine_speed` by `rt run` and, where rustc is installed, `bench/machine_speed.rs`, the same machine
loop in plain Rust, by `rustc -O`. Both run a loop of ten instructions: two loads, three stores, four of
arithmetic and a jump. The machine is to make at least 60 million turns a second, and 0.6 of what plain Rust makes.

Each program is looked at many times, for about a tenth of a second each, in turn with the others, so that
what else runs on the computer meets all of them alike. Its time is the least processor time of its looks, less
the least of as many runs of one round. The least is the right measure: a program that takes no input and no
memory while it runs does the same work each time, and all that differs between two looks (a cache that another
process filled, a processor that it shared or that another guest took, a lower clock) only adds time. So no look
is faster than the program, and the least one is nearest to it. A mean would measure the neighbours.
How noisy the computer was is printed beside it: the load average and the processor's clock, and for each program
how far its middle look and its slowest lie above the least, how much longer the looks took by the clock on the
wall than by the processor's, and how often one was put off its processor. Where the middle is far above the
least, run it again when less else runs.

The memory is the most that stood in memory at once (VmHWM in /proc, so it needs Linux) while that program ran,
and while `flexos run` ran an image of one page of code and one of data, if `rt run` has built
`crates/flexos/out/flexos`. A run of a small image is to take less than 16 MiB.

The exit status is 0 where all limits hold, else 1.

Usage: machine_speed.py [LOOKS [ROUNDS]]
LOOKS is how often each program is looked at, 30 if not said; ROUNDS how often the loop runs in a look, 600,000
if not said.
"""

import os
import shutil
import statistics
import struct
import subprocess
import sys
import tempfile
import time
from pathlib import Path

ROOT = Path(__file__).resolve().parent.parent
CRATE = ROOT / "crates" / "fx_machine_speed"
FLEXOS = ROOT / "crates" / "flexos" / "out" / "flexos"
LOOKS = 30
ROUNDS = 600_000
WANTED = 60e6
SHARE = 0.6
MOST_MEMORY = 16 << 20
STEPS = 30_000_000
MECHANISMS = [("call", 0), ("light", 1)]


def answer(rounds):
    """What both programs print: round n adds 3 n, and there are six turns around the loop."""
    return f"Exit({3 * rounds * (rounds + 1) // 2}) in {10 * rounds + 6} turns\n"


class Look:
    """One run: its processor time, its time on the wall, and how often it was put off its processor."""

    def __init__(self, program, mechanism, rounds):
        words = [str(program), str(mechanism), str(rounds)]
        start = time.monotonic()
        run = subprocess.Popen(words, stdout=subprocess.PIPE, text=True)
        printed = run.stdout.read()
        _, status, used = os.wait4(run.pid, 0)
        run.returncode = os.waitstatus_to_exitcode(status)
        self.wall = time.monotonic() - start
        self.processor = used.ru_utime + used.ru_stime
        self.put_off = used.ru_nivcsw
        if run.returncode or printed != answer(rounds):
            sys.exit(f"{' '.join(words)} printed {printed!r}, not {answer(rounds)!r}")


def look_at(programs, looks, rounds):
    """The looks at each program, and at its runs of one round, taken in turn."""
    seen = {it: ([], []) for it in programs}
    for _ in range(looks):
        for program, mechanism in programs:
            whole, start = seen[program, mechanism]
            whole.append(Look(program, mechanism, rounds))
            start.append(Look(program, mechanism, 1))
    return seen


def speed(seen, rounds):
    """Turns a second."""
    whole, start = (min(look.processor for look in looks) for looks in seen)
    return 10 * (rounds - 1) / (whole - start)


def clock():
    """The processor's name and clock, as far as the system tells."""
    told = {}
    try:
        for line in Path("/proc/cpuinfo").read_text().splitlines():
            name, _, value = line.partition(":")
            told.setdefault(name.strip(), value.strip())
    except FileNotFoundError:
        pass
    rate = f", {float(told['cpu MHz']):.0f} MHz" if "cpu MHz" in told else ""
    return told.get("model name", "unknown processor") + rate


def print_noise(seen, load):
    """Prints how noisy the computer was, by the looks at programs that should all take the same time."""
    print(f"{os.cpu_count()} processors: {clock()}; load average {load[0]:.1f} before and {os.getloadavg()[0]:.1f} after")
    for (program, mechanism), (looks, _) in seen.items():
        times = [look.processor for look in looks]
        least, middle, most = min(times), statistics.median(times), max(times)
        late = sum(look.wall for look in looks) / sum(times)
        put_off = sum(look.put_off for look in looks) / len(looks)
        name = next(name for name, number in MECHANISMS if number == mechanism)
        print(
            f"looks at {program.name} under {name}: least {1000 * least:.0f} ms, middle {middle / least:.2f} and most {most / least:.2f} times that;"
            f" {late:.1f} times as long on the wall, put off {put_off:.0f} times a look"
        )


def resident(process):
    """The most bytes of a process that stood in memory at once so far, 0 where it is over."""
    try:
        for line in Path(f"/proc/{process}/status").read_text().splitlines():
            if line.startswith("VmHWM:"):
                return 1024 * int(line.split()[1])
    except (FileNotFoundError, ProcessLookupError):
        pass
    return 0


def memory(words):
    """The same of a whole run. The machine takes all its memory at boot, so the looks may be far apart."""
    most = 0
    run = subprocess.Popen(words, stdin=subprocess.DEVNULL, stdout=subprocess.DEVNULL, stderr=subprocess.DEVNULL)
    while run.poll() is None:
        most = max(most, resident(run.pid))
        time.sleep(0.005)
    return most


def small_image():
    """One compartment under `call`, whose program is a jump to itself, with one page of data."""
    page = 4096
    return b"".join([
        b"FXIM", struct.pack("<HBBBBBB", 2, 0, 1, 4, 16, 0, 0),
        b"\x01a", struct.pack("<III", 0, page, 0),
        struct.pack("<HHHBII", 1, 1, 1, 0, 0x10000, 1),
        struct.pack("<I", 2 * page), b"\xe9\xfb\xff\xff\xff".ljust(2 * page, b"\xf4"),
        struct.pack("<IIHHI", 0, 0, 0, 0, page), bytes(16),
        struct.pack("<BIQ", 1, 0x400000, 0x20004FE0),
    ])


def runs_in_little_memory(program, rounds, folder):
    """Prints the memory of runs, and says whether it is as little as wanted."""
    runs = [("fx_machine_speed", [str(program), "0", str(rounds)])]
    if FLEXOS.exists():
        image = Path(folder) / "small.img"
        image.write_bytes(small_image())
        runs.append(("flexos run", [str(FLEXOS), "run", str(image), "--steps", str(STEPS)]))
    else:
        print("no memory of `flexos run`: crates/flexos isn't built")
    good = True
    for name, words in runs:
        most = memory(words)
        print(f"{name}: {most / (1 << 20):.1f} MiB of memory")
        good &= 0 < most < MOST_MEMORY
    return good


def plain_rust(folder):
    """The yardstick, built, None where rustc isn't installed."""
    if not shutil.which("rustc"):
        print("no yardstick: rustc isn't installed")
        return None
    plain = Path(folder) / "plain_rust"
    source = ROOT / "bench" / "machine_speed.rs"
    subprocess.run(["rustc", "--edition", "2021", "-O", "--cap-lints", "allow", "-o", str(plain), str(source)], check=True)
    return plain


def runs_fast(program, plain, looks, rounds):
    """Prints the turns a second and the noise, and says whether they are as many as wanted."""
    load = os.getloadavg()
    programs = [(it, number) for _, number in MECHANISMS for it in (program, plain) if it]
    seen = look_at(programs, looks, rounds)
    good = True
    for name, mechanism in MECHANISMS:
        made = speed(seen[program, mechanism], rounds)
        line = f"{name}: {made / 1e6:.1f} million turns a second"
        good &= made >= WANTED
        if plain:
            base = speed(seen[plain, mechanism], rounds)
            line += f", {made / base:.2f} of plain Rust's {base / 1e6:.1f}"
            good &= made >= SHARE * base
        print(line)
    print_noise(seen, load)
    return good


def main(arguments):
    if len(arguments) > 2:
        sys.exit(__doc__)
    looks, rounds = [int(it) for it in arguments] + [LOOKS, ROUNDS][len(arguments):]
    subprocess.run(["rt", "run", "--", "0", "1"], cwd=CRATE, check=True, stdout=subprocess.DEVNULL)
    program = CRATE / "out" / "fx_machine_speed"
    with tempfile.TemporaryDirectory() as folder:
        good = runs_fast(program, plain_rust(folder), looks, rounds)
        good &= runs_in_little_memory(program, 10 * rounds, folder)
    return 0 if good else 1


if __name__ == "__main__":
    sys.exit(main(sys.argv[1:]))
