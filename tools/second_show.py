#!/usr/bin/env python3
"""Writes the text of an image as `show` does and an image in today's version as `migrate` does, by
a reader of its own, or compares the two.

Usage: second_show.py IMAGE     writes the text of the image
       second_show.py           shows and migrates each of the images that flip_image.py makes by
                                hand, for each mechanism and version, by `flexos` and by the reader,
                                and prints how many answers differ

For the last form build flexos first (`rt run` in its folder).
"""
import pathlib
import struct
import subprocess
import sys
import tempfile

ROOT = pathlib.Path(__file__).resolve().parent.parent
PROGRAM = ROOT / "crates" / "flexos" / "out" / "flexos"
MECHANISMS = ["call", "light", "full", "ept"]
CODE, LITERALS = 0x400000, 0x600000


class Fields:
    """The fields of an image, taken from the front of its bytes."""

    def __init__(self, data):
        self.data, self.at = data, 4

    def take(self, form):
        values = struct.unpack_from("<" + form, self.data, self.at)
        self.at += struct.calcsize("<" + form)
        return values

    def one(self, form):
        return self.take(form)[0]

    def name(self):
        length = self.one("B")
        self.at += length
        return self.data[self.at - length:self.at].decode()

    def block(self):
        length = self.one("I")
        self.at += length
        return length


def text_of(data):
    f = Fields(data)
    version, mechanism, count = f.take("HBB")
    pages = f.one("B")
    threads = f.one("B") if version == 2 else 8
    scheduler, home = f.take("BB")
    comps = []
    for _ in range(count):
        name = f.name()
        comps.append((name, *f.take("III")))
    names = [comp[0] for comp in comps]

    def members(bits):
        return "".join(" " + name for c, name in enumerate(names) if bits >> c & 1)

    sections = []
    for _ in range(f.one("H")):
        if version == 2:
            sections.append(f.take("HHBII"))
        else:
            group, key, page, length = f.take("HBII")
            sections.append((group, group, key, page, length))
    code, literals = f.block(), f.block()
    objects = []
    for _ in range(f.one("I")):
        name = f.name()
        section, address, size = f.take("HQI")
        objects.append(f"object {address:016x} {size} bytes in section {section}, {name}, "
                       f"initial {f.block()} bytes")
    entries = []
    for _ in range(f.one("H")):
        name = f.name()
        owner, number, callers = f.take("BHH")
        address = CODE + comps[owner][1] + 16 * number
        entries.append(f"entry {address:016x} {number} of {names[owner]}, {name}, "
                       f"callers{members(callers)}")
    stubs = []
    for _ in range(f.one("H")):
        source, target, entry, offset, first, second = f.take("BBHIII")
        stubs.append(f"stub {CODE + offset:016x} from {names[source]} "
                     f"to entry {entry} of {names[target]}, "
                     f"wrpkru {CODE + first:016x} and {CODE + second:016x}")
    abort = f.one("I")
    owners = f.take("16B")
    starts = [f.take("IQ") for _ in range(f.one("B"))]

    lines = [
        f"FlexOS image, version {version}",
        f"mechanism {MECHANISMS[mechanism]}, {threads} threads, {pages} stack pages",
        f"scheduler {names[scheduler]}, home {names[home]}",
        f"code {CODE:016x} {code} bytes, abort stub {CODE + abort:016x}",
        f"literals {LITERALS:016x} {literals} bytes",
    ]
    for c, (name, start, length, pkru) in enumerate(comps):
        line = f"compartment {c} {name}, code {CODE + start:016x} {length} bytes"
        if mechanism in (1, 2):
            reads = "".join(f" {k}" for k in range(16) if not pkru >> 2 * k & 1)
            writes = "".join(f" {k}" for k in range(16) if not pkru >> 2 * k & 3)
            line += f", pkru {pkru:08x}, reads keys{reads}, writes keys{writes}"
        lines.append(line)
    lines += entries
    for n, (readers, writers, key, page, length) in enumerate(sections):
        lines.append(f"section {n} {4096 * page:016x} {length} pages, key {key}, "
                     f"readers{members(readers)}, writers{members(writers)}")
    lines += objects + stubs
    lines += [f"device {i} of {names[owner]}" for i, owner in enumerate(owners)]
    lines += [f"start of vcpu {i}, rip {rip:016x}, rsp {rsp:016x}"
              for i, (rip, rsp) in enumerate(starts)]
    return "".join(line + "\n" for line in lines)


def migrated(data):
    """The bytes in version 2: the threads behind the stack's pages, each section's set twice."""
    if data[4] == 2:
        return data
    head = data[:4] + struct.pack("<H", 2) + data[6:9] + bytes([8]) + data[9:11]
    f = Fields(data)
    f.at = 11
    for _ in range(data[7]):
        f.name()
        f.take("III")
    comps, (count,) = data[11:f.at], f.take("H")
    rows = [f.take("HBII") for _ in range(count)]
    sections = b"".join(struct.pack("<HHBII", row[0], *row) for row in rows)
    return head + comps + struct.pack("<H", count) + sections + data[f.at:]


def answered(words):
    """The program's status, and what it wrote to its output or to the file `b.img`."""
    with tempfile.TemporaryDirectory() as folder:
        folder = pathlib.Path(folder)
        (folder / "a.img").write_bytes(words.pop())
        ran = subprocess.run([PROGRAM, *words], cwd=folder, capture_output=True)
        new = folder / "b.img"
        return ran.returncode, new.read_bytes() if new.exists() else ran.stdout.decode()


def compare_images():
    """Shows and migrates the images made by hand."""
    import flip_image
    tried = differ = 0
    for version in (1, 2):
        for mechanism in flip_image.MECHANISMS.values():
            data = flip_image.image(mechanism, version)
            tried += 2
            differ += answered(["show", "a.img", data]) != (0, text_of(data))
            differ += answered(["migrate", "a.img", "b.img", data]) != (0, migrated(data))
    print(f"{tried} answers, {differ} differ")
    return differ


def main():
    if len(sys.argv) > 1:
        sys.stdout.write(text_of(pathlib.Path(sys.argv[1]).read_bytes()))
        return 0
    return 1 if compare_images() else 0


if __name__ == "__main__":
    sys.exit(main())
