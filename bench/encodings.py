#!/usr/bin/env python3
"""Compares the spellings that `fx_cpu_test` prints with two other programs.

Each line of the program is an instruction and its spelling. This script writes the instruction in
Intel's syntax and asks:

* objdump: does it read the spelling as this instruction, with this length?
* as: does it spell the instruction alike? Where `as` has a shorter form, as a displacement of 8
  bits, it chooses that one, and there is nothing to compare.

Usage: encodings.py PROGRAM [DRAWS]
PROGRAM is the built `fx_cpu_test`; DRAWS is how many instructions are drawn, 60000 if not said.
Where a tool is missing, its part is skipped, and says so.
"""

import re
import shutil
import subprocess
import sys
import tempfile
from pathlib import Path

DRAWS = 60000

WIDE = ["rax", "rcx", "rdx", "rbx", "rsp", "rbp", "rsi", "rdi"]
NAMES = {
    "W64": WIDE + [f"r{n}" for n in range(8, 16)],
    "W32": ["e" + name[1:] for name in WIDE] + [f"r{n}d" for n in range(8, 16)],
    "W16": [name[1:] for name in WIDE] + [f"r{n}w" for n in range(8, 16)],
    "W8": ["al", "cl", "dl", "bl", "spl", "bpl", "sil", "dil"] + [f"r{n}b" for n in range(8, 16)],
}
NUMBERS = {name.capitalize(): number for number, name in enumerate(NAMES["W64"])}
POINTERS = {"W8": "BYTE", "W16": "WORD", "W32": "DWORD", "W64": "QWORD"}


def register(width, name):
    return NAMES[width][NUMBERS[name]]


def memory(fields, width):
    base, disp = register("W64", fields["base"]), int(fields["disp"])
    return f"{POINTERS[width]} PTR [{base}{'-' if disp < 0 else '+'}{abs(disp):#x}]"


def constant(value, width):
    """A constant as objdump prints it: the bits of the operand."""
    bits = {"W32": 32, "W64": 64}[width]
    return f"{int(value) % 2 ** bits:#x}"


def intel(name, fields, at, length):
    """The instruction that stands at an address, in Intel's syntax."""
    w = fields.get("w", "W64")
    f = fields
    if name == "Mov":
        return f"mov {register(w, f['dst'])},{register(w, f['src'])}"
    if name == "Load":
        return f"mov {register(w, f['dst'])},{memory(f, w)}"
    if name in ("LoadZero", "Zero"):
        source = memory(f, f["from"]) if name == "LoadZero" else register(f["from"], f["src"])
        return f"movzx {register('W32', f['dst'])},{source}"
    if name in ("LoadSign", "Sign"):
        source = memory(f, f["from"]) if name == "LoadSign" else register(f["from"], f["src"])
        verb = "movsxd" if f["from"] == "W32" else "movsx"
        return f"{verb} {register('W64', f['dst'])},{source}"
    if name == "Store":
        return f"mov {memory(f, w)},{register(w, f['src'])}"
    if name == "MovImm":
        return f"mov {register('W64', f['dst'])},{constant(f['imm'], 'W64')}"
    if name == "MovImm64":
        return f"movabs {register('W64', f['dst'])},{constant(f['imm'], 'W64')}"
    if name == "Lea":
        return f"lea {register('W64', f['dst'])},{memory(f, 'W64').removeprefix('QWORD PTR ')}"
    if name == "Alu":
        return f"{f['op'].lower()} {register(w, f['dst'])},{register(w, f['src'])}"
    if name == "AluImm":
        return f"{f['op'].lower()} {register(w, f['dst'])},{constant(f['imm'], w)}"
    if name == "Imul":
        return f"imul {register(w, f['dst'])},{register(w, f['src'])}"
    if name == "Shift":
        return f"{f['op'].lower()} {register(w, f['dst'])},cl"
    if name == "Unary":
        return f"{f['op'].lower()} {register(w, f['reg'])}"
    if name == "Setcc":
        return f"set{f['cond'].lower()} {register('W8', f['dst'])}"
    if name in ("Jcc", "Jmp", "Call"):
        verb = "j" + f["cond"].lower() if name == "Jcc" else name.lower()
        return f"{verb} {(at + length + int(f['rel'])) % 2 ** 64:#x}"
    if name in ("Push", "Pop"):
        return f"{name.lower()} {register('W64', f['reg'])}"
    return name.lower()


def parse(line):
    """A line of the program: the spelling, the variant and its fields."""
    text, digits = line.split(" = ")
    return bytes.fromhex(digits), text.split(" ", 1)[0], dict(re.findall(r"(\w+): (-?\w+)", text))


def run(words, **options):
    return subprocess.run(words, check=True, capture_output=True, text=True, **options).stdout


def drawn(program, draws):
    seen, rows = set(), []
    for line in run([program, str(draws)]).splitlines():
        if line not in seen:
            seen.add(line)
            rows.append(parse(line))
    return rows


def placed(rows):
    """Each row with its address, where they stand one behind the other."""
    at = 0
    for spelling, name, fields in rows:
        yield at, spelling, intel(name, fields, at, len(spelling))
        at += len(spelling)


def disassembly(rows, folder):
    """What objdump reads at each address: the bytes and the text."""
    path = Path(folder) / "code.bin"
    path.write_bytes(b"".join(spelling for spelling, _, _ in rows))
    words = ["objdump", "-D", "-z", "-w", "-b", "binary", "-m", "i386:x86-64", "-M", "intel"]
    read = {}
    for line in run(words + [str(path)]).splitlines():
        match = re.match(r"\s*([0-9a-f]+):\t([0-9a-f ]+?)\s*\t(.*)", line)
        if match:
            text = re.sub(r"\s+", " ", match[3].split("#")[0]).strip()
            read[int(match[1], 16)] = (bytes.fromhex(match[2]), text)
    return read


def compare_objdump(rows, folder):
    read, different = disassembly(rows, folder), 0
    for at, spelling, text in placed(rows):
        if read.get(at) != (spelling, text):
            different += 1
            if different <= 10:
                print(f"  {spelling.hex()}: {text}, objdump {read.get(at)}")
    print(f"objdump: compared {len(rows)}, different {different}")
    return different


def assembly(texts, folder):
    """What `as` makes of each text. Each stands in 16 bytes of its own, and what the filling is
    shows where it ends."""
    source, made, code = (Path(folder) / name for name in ("code.s", "code.o", "code.bin"))
    filled = []
    for filling in ("0x00", "0xff"):
        lines = [".intel_syntax noprefix", ".code64"]
        for text in texts:
            lines += [f".balign 16, {filling}", text]
        source.write_text("\n".join(lines + [f".balign 16, {filling}", ""]))
        run(["as", "--64", "-o", str(made), str(source)])
        run(["objcopy", "-O", "binary", "-j", ".text", str(made), str(code)])
        filled.append(code.read_bytes())
    for number in range(len(texts)):
        zeros, ones = (code[16 * number : 16 * number + 16] for code in filled)
        length = 16
        while zeros[length - 1] != ones[length - 1]:
            length -= 1
        yield zeros[:length]


def for_as(spelling, name, fields, text):
    """A relative jump is written by its distance from the instruction's own address."""
    if name in ("Jcc", "Jmp", "Call"):
        return f"{text.split(' ')[0]} .{int(fields['rel']) + len(spelling):+d}"
    return text


def compare_as(rows, folder):
    texts = [
        for_as(spelling, name, fields, text)
        for (_, spelling, text), (_, name, fields) in zip(placed(rows), rows)
    ]
    compared = different = shorter = 0
    for (spelling, _, _), text, made in zip(rows, texts, assembly(texts, folder)):
        if len(made) < len(spelling):
            shorter += 1
            continue
        compared += 1
        if made != spelling:
            different += 1
            if different <= 10:
                print(f"  {text}: {spelling.hex()}, as {made.hex()}")
    print(f"as: compared {compared}, different {different}; {shorter} have a shorter form there")
    return different


def main(arguments):
    if len(arguments) not in (1, 2):
        sys.exit(__doc__)
    rows = drawn(arguments[0], int(arguments[1]) if len(arguments) == 2 else DRAWS)
    different = 0
    with tempfile.TemporaryDirectory() as folder:
        if shutil.which("objdump"):
            different += compare_objdump(rows, folder)
        else:
            print("objdump: skipped, since there is no objdump here")
        if shutil.which("as") and shutil.which("objcopy"):
            different += compare_as(rows, folder)
        else:
            print("as: skipped, since there is no as or objcopy here")
    return 1 if different else 0


if __name__ == "__main__":
    sys.exit(main(sys.argv[1:]))
