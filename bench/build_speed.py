#!/usr/bin/env python3
"""How fast `build` is: lines a second on generated sources, against gcc -O0 -c and, where it is installed, tcc -c.

The sources are functions with loops, conditions, arrays, structs and calls, in files of at most 1 MiB
each. The time is the least processor time of some runs. Growth is the time for each line at the
greatest size over that at the smallest: 1 is linear.

Wanted: more lines a second than gcc, and a growth of at most 1.5. The exit status is 0 where both
hold, 1 where not, 2 where a tool is missing. It needs the proved program (`./flexos` makes it) and gcc.

Usage: build_speed.py [PROGRAM]
PROGRAM is the executable, `crates/flexos/out/flexos` if not said.
"""

import resource
import shutil
import subprocess
import sys
import tempfile
from pathlib import Path

ROOT = Path(__file__).resolve().parent.parent
FLEXOS = ROOT / "crates" / "flexos" / "out" / "flexos"
RUNS = 3
GROWTH = 1.5
# bytes of sources together, each file at most 1 MiB less a function
# (code may have 1,048,576 bytes, which sources of about 600,000 bytes need)
SIZES = [1 << 14, 1 << 16, 1 << 18, 1 << 19]
LONGEST = (1 << 20) - 4096


def function(n):
    """The text of function n, which calls the one before it."""
    before = f"function_{n - 1}(values, count - 1)" if n else "count"
    return f"""struct pair_{n} {{
    long first;
    int second;
}};

int function_{n}(int *values, int count) {{
    struct pair_{n} pair;
    long sum = {n};
    int i;
    if (count <= 0) return 0;
    pair.first = sum * 3;
    pair.second = count;
    for (i = 0; i < 8; i = i + 1) {{
        if (values[i] > pair.second && i != {n % 7}) sum = sum + values[i] - pair.first;
        else sum = sum ^ (i << 3);
        while (sum > 1000) sum = sum / 2 + (sum & {n % 255});
    }}
    values[count & 7] = sum;
    return {before} + (int)sum;
}}

"""


def sources(size):
    """Texts of about so many bytes together; each file calls functions of its own alone."""
    texts, made = [], 0
    while made < size:
        parts, length, n = [], 0, 0
        prefix = f"file_{len(texts)}"
        while made < size and length < LONGEST:
            part = function(n).replace("function_", f"{prefix}_f").replace("pair_", f"{prefix}_p")
            parts.append(part)
            length += len(part)
            made += len(part)
            n += 1
        texts.append("".join(parts))
    texts[0] += "int main() {\n    int values[8];\n    return file_0_f0(values, 1);\n}\n"
    return texts


def conf(count):
    files = ", ".join(f'"{i}.c"' for i in range(count))
    library = f'[[library]]\nname = "program"\nfiles = [{files}]\n'
    return f'mechanism = "call"\n\n{library}\n[[compartment]]\nname = "all"\nlibraries = ["program"]\n'


def least(words, folder):
    """The least processor time of some runs, in seconds."""
    times = []
    for _ in range(RUNS):
        before = resource.getrusage(resource.RUSAGE_CHILDREN)
        done = subprocess.run(words, cwd=folder, capture_output=True, text=True, stdin=subprocess.DEVNULL)
        after = resource.getrusage(resource.RUSAGE_CHILDREN)
        if done.returncode:
            sys.exit(f"{' '.join(words[:2])}: {done.stderr[-500:]}")
        times.append(after.ru_utime + after.ru_stime - before.ru_utime - before.ru_stime)
    return min(times)


def main():
    flexos = str(Path(sys.argv[1] if len(sys.argv) > 1 else FLEXOS).resolve())
    for tool in ("gcc", flexos):
        if not shutil.which(tool):
            print(f"{tool} isn't there")
            return 2
    others = [it for it in ("gcc", "tcc") if shutil.which(it)]
    options = {"gcc": ["-O0", "-w"], "tcc": ["-w"]}
    rates = []
    print(f"{'bytes':>10} {'lines':>9} {'build':>12} " + " ".join(f"{it:>12}" for it in others) + "   lines a second")
    for size in SIZES:
        with tempfile.TemporaryDirectory() as it:
            folder, texts = Path(it), sources(size)
            for i, text in enumerate(texts):
                (folder / f"{i}.c").write_text(text)
            (folder / "conf.toml").write_text(conf(len(texts)))
            lines = sum(text.count("\n") for text in texts)
            files = [f"{i}.c" for i in range(len(texts))]
            row = [lines / least([flexos, "build", "conf.toml", "out.img"], folder)]
            row += [lines / least([it, *options[it], "-c", *files], folder) for it in others]
            rates.append(row)
            print(f"{size:>10,} {lines:>9,} " + " ".join(f"{it:>12,.0f}" for it in row))
    growth = rates[0][0] / rates[-1][0]
    print(f"growth {growth:.2f}; against gcc at {SIZES[-1]:,} bytes {rates[-1][0] / rates[-1][1]:.2f}")
    return 0 if growth <= GROWTH and rates[-1][0] > rates[-1][1] else 1


if __name__ == "__main__":
    sys.exit(main())
