#!/usr/bin/env python3
"""Compares the images that `flexos exec` writes with the layout written out here by hand.

Build the program first (README.md). For each list of constants it writes the configuration and the
source into a new folder, runs the program there, and compares the image with the bytes that the image
format asks for. It prints how many images it compared and how many differ.
"""
import pathlib
import struct
import subprocess
import sys
import tempfile

ROOT = pathlib.Path(__file__).resolve().parent.parent
PROGRAM = ROOT / "crates" / "flexos" / "out" / "flexos"
CONFIGURATION = (ROOT / "examples" / "hello" / "conf.toml").read_bytes()
PAGE = 4096
LISTS = [[], [72], [0, 255, 10], list(range(256)), [15, 1, 239] * 100, [65] * 289, [65] * 290, [65] * 1000]


def filled(code, unit):
    return code + b"\xf4" * (-len(code) % unit)


def move(register, number):
    """mov register, imm32 (REX.W C7 /0)"""
    return bytes([0x48, 0xC7, 0xC0 + register]) + struct.pack("<i", number)


def code_of(constants):
    rax, rcx, rdi = 0, 1, 7
    main = move(rax, 0xF100000)
    for constant in constants:
        main += move(rcx, constant) + bytes([0x48, 0x89, 0x88, 0, 0, 0, 0])
    jump = b"\xe9" + struct.pack("<i", 11)
    compartment = filled(filled(jump, 16) + main + b"\xc3", PAGE)
    start = b"\xe8" + struct.pack("<i", -(len(compartment) + 5)) + move(rax, 0) + move(rdi, 0) + b"\xf4"
    abort = move(rax, 4) + b"\xf4"
    return compartment, filled(start + abort, PAGE), len(compartment) + len(start)


def name(text):
    return bytes([len(text)]) + text


def image_of(constants):
    compartment, runtime, abort = code_of(constants)
    code = compartment + runtime
    return b"".join([
        b"FXIM", struct.pack("<HBBBBBB", 2, 0, 1, 4, 16, 0, 0),
        name(b"a") + struct.pack("<III", 0, len(compartment), 0),
        struct.pack("<HHHBII", 1, 1, 1, 0, 0x10000, 1),
        struct.pack("<I", len(code)) + code,
        struct.pack("<I", 0),
        struct.pack("<I", 1) + name(b".rt.a") + struct.pack("<HQII", 0, 0x10000000, PAGE, 0),
        struct.pack("<H", 1) + name(b"main") + struct.pack("<BHH", 0, 0, 0),
        struct.pack("<H", 0),
        struct.pack("<I", abort),
        bytes(16),
        struct.pack("<BIQ", 1, 0x400000 + len(compartment), 0x20004FE0),
    ])


def main():
    if not PROGRAM.exists():
        print("early_layout: the program isn't built")
        return 1
    different = 0
    for constants in LISTS:
        with tempfile.TemporaryDirectory() as folder:
            folder = pathlib.Path(folder)
            (folder / "conf.toml").write_bytes(CONFIGURATION)
            source = "void main() { " + " ".join(f"__putc({c});" for c in constants) + " }\n"
            (folder / "a.c").write_text(source)
            ran = subprocess.run([PROGRAM, "exec", "conf.toml", "out.img"], cwd=folder, capture_output=True)
            line = f"exit 0 in {7 + 2 * len(constants)} turns\n".encode()
            same = (
                ran.returncode == 0
                and ran.stdout == bytes(constants)
                and ran.stderr == line
                and (folder / "out.img").read_bytes() == image_of(constants)
            )
            if not same:
                different += 1
                print(f"different: {len(constants)} constants, status {ran.returncode}, {ran.stderr!r}")
    print(f"images compared {len(LISTS)}, different {different}")
    return 1 if different else 0


if __name__ == "__main__":
    sys.exit(main())
