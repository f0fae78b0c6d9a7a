#!/usr/bin/env python3
"""Times of the front end's text half on a source of 1 MiB, against gcc -fsyntax-only or tcc -c.

Build the test program first, by `rt test` in crates/fx_c_types_test. Each test named
below reads texts of 1 MiB as often as its row says; the time printed is that of one text. The yardstick
is measured in the same run on declarations of the same length, and the ratio is to it.
"""
import pathlib
import resource
import shutil
import subprocess
import sys
import tempfile

ROOT = pathlib.Path(__file__).resolve().parent.parent
RUNS = 5
LINE = b"int a[0x10]; //\n"
SIZE = 1 << 20

# crate, test, texts of 1 MiB that it reads
TESTS = [
    ("fx_c_types_test", "lexer::long_names_and_texts", 2),
    ("fx_c_types_test", "parser::one_mebibyte", 2),
]


def seconds(command):
    """The least processor time of some runs; none where the program fails."""
    best = None
    for _ in range(RUNS):
        before = resource.getrusage(resource.RUSAGE_CHILDREN)
        if subprocess.run(command, stdout=subprocess.DEVNULL, stderr=subprocess.DEVNULL).returncode != 0:
            return None
        after = resource.getrusage(resource.RUSAGE_CHILDREN)
        spent = after.ru_utime + after.ru_stime - before.ru_utime - before.ru_stime
        best = spent if best is None else min(best, spent)
    return best


def yardstick(folder):
    """The compiler that is installed, and its time on the declarations."""
    source = pathlib.Path(folder) / "source.c"
    source.write_bytes(LINE * (SIZE // len(LINE)))
    for name, words in (("gcc", ["-fsyntax-only"]), ("tcc", ["-c", "-o", "/dev/null"])):
        if shutil.which(name):
            spent = seconds([name, *words, str(source)])
            if spent is not None:
                return f"{name} {words[0]}", spent
    return None, None


def main():
    with tempfile.TemporaryDirectory() as folder:
        name, base = yardstick(folder)
    if name:
        print(f"{name}: {base * 1000:.1f} ms")
    else:
        print("no yardstick: neither gcc nor tcc is installed")
    found = False
    for crate, test, texts in TESTS:
        program = ROOT / "crates" / crate / "out" / f"{crate}_tests"
        if not program.exists():
            print(f"{crate}: no test program; run `rt test` in crates/{crate}")
            continue
        spent = seconds([str(program), test])
        if spent is None:
            print(f"{crate} {test}: failed")
            continue
        found = True
        ratio = f", {spent / texts / base:.2f} of {name}" if base else ""
        print(f"{crate} {test}: {spent / texts * 1000:.1f} ms for 1 MiB{ratio}")
    return 0 if found else 1


if __name__ == "__main__":
    sys.exit(main())
