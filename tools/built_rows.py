#!/usr/bin/env python3
"""Small programs with known answers, built under plain calls and run on the machine.

Each case gives the sources of one or more libraries, each in a compartment of its own, of which the
first one schedules and owns all devices, and what `flexos exec` must answer: its status, its line
(with N for the number of turns) and what it writes to standard output. The cases cover calls across
compartments, threads, devices, constants that spell WRPKRU, the stack's end, division, the order of
evaluation, and refusals of the configuration and the sources.

Usage: built_rows.py PROGRAM
PROGRAM is the executable. A line for each case that differs; the exit status is 0 where none does.
"""

import os
import re
import subprocess
import sys
import tempfile


def configuration(names, pages=4, mechanism="call"):
    lines = [f'mechanism = "{mechanism}"', f'scheduler = "{names[0]}"', f"stack_pages = {pages}", ""]
    for name in names:
        lines += ["[[library]]", f'name = "{name}"', f'files = ["{name}.c"]', ""]
    for number, name in enumerate(names):
        lines += ["[[compartment]]", f'name = "{name}"', f'libraries = ["{name}"]']
        lines += ["devices = [1, 2]"] * (number == 0) + [""]
    return "\n".join(lines)


class Case:
    def __init__(self, name, sources, status, line, out=b"", words=(), pages=4, given=b"", text=None):
        self.name, self.sources, self.status, self.line = name, sources, status, line
        self.out, self.words, self.given = out, list(words), given
        names = [chr(ord("a") + i) for i in range(len(sources))]
        self.files = {f"{n}.c": s for n, s in zip(names, sources)}
        self.files["c.toml"] = configuration(names, pages) if text is None else text


PEEK = "__entry long peek(long *p) { return *p; }"
YIELDS = [
    "long th(long x) { __gate(work, x); return 0; } __entry long yield(long t) { __switch(t); return 0; } "
    "__entry long put(long c) { __putc(c); return 0; } long main() { long t; t = __spawn(th, 7); "
    "__switch(t); __putc(67); __switch(t); __putc(69); return 0; }",
    "__entry long work(long x) { __gate(put, 66); __gate(yield, 0); __gate(put, 68); return 0; }",
]
DEEP = "long r(long n) { if (n == 0) return 0; return r(n - 1); } long main() { return r(%d); }"
SPAWNS = "long th(long x) { return 0; } long main() { long i; for (i = 0; i < %d; i = i + 1) __spawn(th, i); return 0; }"
LONG = (
    "long z() { return 7; } void nothing(long x) { } long two(long a, long b) { return a * 10 + b; } "
    "long main() { long a = 3; long b = 4; long c = 5; int i = -1; long *p = &a; char s[4]; s[2] = 200; "
    "a = a * b + ((a < b && b < c) + z()) * (b * c - (a > b || !(c == a)) * 2); "
    "c = (a + b) * (c + z()) - (b * 3 + (a * 2 < c * 5 && !(p == 0))) + (a - 1) * (!p || !i) "
    "+ (b + c) * two(z(), (a * 2 > b + 1) + 1); if (a * 2 + (b * 2 < c + 1 || i < 0) > 3) nothing(c); "
    "else return 1; *p = (b * 2) - (c & (p && s[2])); "
    "s[(a & 1) + (b == 4 && c != 2)] = *p * 2 + (z() < (i == -1 && 3 < b)); "
    "return a * 7 + c + s[1] + s[2] + (i + b * 0); }"
)

CASES = [
    Case("a byte", ["void main() { __putc(72); }"], 0, "exit 0 in N turns", b"H"),
    Case("nothing", ["void main() { }"], 0, "exit 0 in N turns"),
    Case("gates both ways", [
        "__entry long pong(long x) { return x + 1; } long main() { return __gate(ping, 40); }",
        "__entry long ping(long x) { return __gate(pong, x) + 1; }"], 0, "exit 42 in N turns"),
    Case("a global read", ["long secret = 7; long main() { return __gate(peek, &secret); }", PEEK], 0, "exit 7 in N turns"),
    Case("a local read", ["long main() { long v = 7; return __gate(peek, &v); }", PEEK], 0, "exit 7 in N turns"),
    Case("a shared local read", ["long main() { __shared long v = 7; return __gate(peek, &v); }", PEEK], 0, "exit 7 in N turns"),
    Case("globals apart", ["long a; long b; long main() { return (&a + 1 == &b) + 5; }"], 0, "exit 5 in N turns"),
    Case("a key's bytes", ["long main() { return 0xEF010F; }"], 0, "exit 15663375 in N turns"),
    Case("a key's bytes twice", ["long main() { return 0xEF010FEF010F; }"], 0, "exit 262787841327375 in N turns"),
    Case("a full stack", [DEEP % 61], 0, "exit 0 in N turns", pages=1),
    Case("a stack too full", [DEEP % 62], 7, "stack full: thread 0 stack common", pages=1),
    Case("least by -1", ["long main() { int a = 1; int b = -1; a = a << 31; return a / b; }"], 9, "divide"),
    Case("threads across gates", YIELDS, 0, "exit 0 in N turns", b"BCDE"),
    Case("threads full", [SPAWNS % 16], 9, "threads full"),
    Case("fifteen threads", [SPAWNS % 15], 0, "exit 0 in N turns"),
    Case("no thread", ["long main() { __switch(5); return 0; }"], 9, "bad thread"),
    Case("an ended thread", [
        "long th(long x) { return 0; } long main() { long t; t = __spawn(th, 0); __switch(t); __switch(t); return 5; }"],
        9, "bad thread"),
    Case("a block store", ["long main() { __out(1, 0, 5); __out(1, 1, 9); __out(1, 0, 5); return __in(1, 1); }"], 0, "exit 9 in N turns"),
    Case("an unplugged store", ["long main() { __out(1, 0, 5); __out(1, 1, 9); __out(1, 0, 5); return __in(1, 1); }"], 0, "exit -1 in N turns", words=["--unplug", "1", "3"]),
    Case("a store unplugged at once", ["long main() { __out(1, 0, 5); __out(1, 1, 9); __out(1, 0, 5); return __in(1, 1); }"], 0, "exit -1 in N turns", words=["--unplug", "1", "0"]),
    Case("a counter", ["long main() { long a; a = __in(2, 0); a = __in(2, 0); return a; }"], 0, "exit 1 in N turns"),
    Case("no steps", ["void main() { }"], 8, "steps spent: 0", words=["--steps", "0"]),
    Case("a semicolon left out", ["void main() { __putc(72) }"], 3, "refused: parse file 0 Syntax 0"),
    Case("a strange byte", ["$"], 3, "refused: parse file 0 Byte 0"),
    Case("an unknown name", ["void main() { x = 1; }"], 3, "refused: types UnknownName 0"),
    Case("no main", [""], 3, "refused: types NoMain 0"),
    Case("no configuration", ["void main() { }"], 3, "refused: config NotToml", text="mechanism = "),
    Case("no mechanism", ["void main() { }"], 3, "refused: config OutOfRange", text=configuration("a", mechanism="fast")),
    Case("no input", ["long main() { return __getc(); }"], 0, "exit -1 in N turns"),
    Case("an input", ["long main() { return __getc() * 256 + __getc(); }"], 0, "exit 16706 in N turns", given=b"AB"),
    Case("a readable global", [
        "__read(b) long v = 7; long main() { return __gate(peek, &v); }", PEEK], 0, "exit 7 in N turns"),
    Case("a readable global written", [
        "__read(b) long v = 7; long main() { return __gate(poke, &v); }",
        "__entry long poke(long *p) { *p = 1; return 0; }"], 0, "exit 0 in N turns"),
    Case("gates in three", [
        "__entry long back() { return __gate(end) + 1; } long main() { return __gate(ping); }",
        "__entry long ping() { return __gate(back) + 1; }", "__entry long end() { return 40; }"], 0, "exit 42 in N turns"),
    Case("six arguments", [
        "long main() { return __gate(six, 1, 2, 3, 4, 5, 6); }",
        "__entry long six(long a, long b, long c, long d, long e, long f) "
        "{ return a + 10 * (b + 10 * (c + 10 * (d + 10 * (e + 10 * f)))); }"], 0, "exit 654321 in N turns"),
    Case("locals behind a gate", [
        "long main() { __shared long w = 7; return __gate(two, &w); }",
        "__entry long two(long *p) { long v; return (p == &v) + 2 * (*p == 7); }"], 0, "exit 2 in N turns"),
    Case("an address is true", ["long main() { long a = 2; long b[2]; b[1] = 9; return *(1 + b) + 2 * (!&a == 0); }"], 0, "exit 11 in N turns"),
    Case("values of falling off", ["long f() { } char *g() { } long main() { return f() + (g() == 0); }"], 0, "exit 1 in N turns"),
    Case("mixed expressions", [LONG], 0, "exit 2571 in N turns"),
]


def answer(program, case):
    with tempfile.TemporaryDirectory() as folder:
        for name, text in case.files.items():
            with open(os.path.join(folder, name), "w") as file:
                file.write(text)
        made = subprocess.run([program, "exec", "c.toml", "out.img", *case.words], cwd=folder,
                              input=case.given, capture_output=True, timeout=300)
        written = os.path.exists(os.path.join(folder, "out.img"))
    lines = made.stderr.decode().splitlines()
    line = re.sub(r" in \d+ turns", " in N turns", lines[0]) if lines else ""
    return made.returncode, line, made.stdout, written


def main(words):
    if len(words) != 1:
        print(__doc__.strip())
        return 2
    program, wrong = os.path.abspath(words[0]), 0
    for case in CASES:
        status, line, out, written = answer(program, case)
        if (status, line, out, written) != (case.status, case.line, case.out, case.status != 3):
            wrong += 1
            print(f"{case.name}: status {status}, {line!r}, {out!r}, image written: {written}; "
                  f"wanted {case.status}, {case.line!r}, {case.out!r}")
    print(f"{len(CASES)} cases, {wrong} differences")
    return 1 if wrong else 0


if __name__ == "__main__":
    sys.exit(main(sys.argv[1:]))
