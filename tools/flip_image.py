#!/usr/bin/env python3
"""Compares what the image's reader answers with a second reader, written here from the format's table.

Build `fx_image_test` first (`rt run` in its folder). The script makes an image by hand for each
mechanism and version, flips each bit of each of its bytes (in the code one bit of each byte, since a
rule speaks of its WRPKRUs alone), cuts each of its prefixes, draws changes of several bytes, and asks the
program and the reader below for the answers: an image, or the first refusal in the order of the fields.
An image of the most objects, and one of an object more, are read too.

It prints how many bytes were changed how often, and how many answers differ.

Usage: flip_image.py [DRAWS]
DRAWS is how many changes of several bytes are drawn for each image, 2000 if not said.
"""
import pathlib
import random
import re
import struct
import subprocess
import sys
import time

ROOT = pathlib.Path(__file__).resolve().parent.parent
PROGRAM = ROOT / "crates" / "fx_image_test" / "out" / "fx_image_test"
DRAWS = 2000
PAGE = 4096
MECHANISMS = {"call": 0, "light": 1, "full": 2, "ept": 3}
WRPKRU = b"\x0f\x01\xef"
C_NAME = re.compile(rb"[A-Za-z_][A-Za-z0-9_]{0,62}")
OBJECT_NAME = re.compile(rb"(\.rt\.)?[A-Za-z_][A-Za-z0-9_]{0,62}")


class Refused(Exception):
    pass


class Bytes:
    """Bytes that are taken from the front."""

    def __init__(self, data):
        self.data, self.at = data, 0

    def take(self, count):
        if len(self.data) - self.at < count:
            raise Refused("Short")
        self.at += count
        return self.data[self.at - count:self.at]

    def numbers(self, form):
        return struct.unpack("<" + form, self.take(struct.calcsize("<" + form)))

    def number(self, form):
        return self.numbers(form)[0]

    def name(self):
        return self.take(self.number("B"))

    def block(self):
        return self.take(self.number("I"))


def demand(field, *rules):
    """Refuses a field that is whole unless each of its rules holds; a rule is tried behind the former ones."""
    for rule in rules:
        if not (rule() if callable(rule) else rule):
            raise Refused(f"Field {field}")


def pkru(sections, scheduler, compartment):
    """Two bits for each key: reads are forbidden, writes are forbidden."""
    value = 0 if compartment == scheduler else 8
    for key in range(2, 16):
        mine = [s for s in sections if s[2] == key]
        reads = any(s[0] >> compartment & 1 for s in mine)
        writes = any(s[1] >> compartment & 1 for s in mine)
        value |= (not reads) << 2 * key | (not writes) << 2 * key + 1
    return value


def are_ranges(comps):
    end = 0
    for _, start, length, _ in comps:
        if start != end or length % PAGE:
            return False
        end += length
    return True


def are_spread(sections):
    page = 0x10000
    for _, _, _, first, pages in sections:
        if first != page or pages < 1:
            return False
        page = first + pages + 1
    return True


def are_pairs(version, n, sections):
    everyone = 2 ** n - 1
    leading = [2 ** c for c in range(n)] + ([everyone] if n > 1 else [])
    pairs = [(s[0], s[1]) for s in sections]
    return (
        all(w and w & ~r == 0 and r <= everyone for r, w in pairs)
        and len(set(pairs)) == len(pairs)
        and pairs[:len(leading)] == [(one, one) for one in leading]
    )


def are_objects(sections, objects):
    least = 0
    for name, section, address, size, initial in objects:
        if not OBJECT_NAME.fullmatch(name) or section >= len(sections) or address < least:
            return False
        first, pages = sections[section][3:]
        if address < first * PAGE or address + size > (first + pages) * PAGE:
            return False
        if len(initial) > size or initial.endswith(b"\0"):
            return False
        least = address + size + 16
    return len({o[0] for o in objects}) == len(objects) <= 32016


def are_entries(comps, entries):
    last, next_number = 0, 0
    for name, compartment, number, callers in entries:
        if not C_NAME.fullmatch(name) or compartment >= len(comps) or callers >> len(comps):
            return False
        if compartment != last:
            if compartment < last:
                return False
            last, next_number = compartment, 0
        if number != next_number or 16 * number >= comps[compartment][2]:
            return False
        next_number += 1
    return True


def are_stubs(keyed, comps, code, runtime, entries, stubs):
    if not keyed:
        return not stubs
    for start, to, entry, offset, first, second in stubs:
        if start == to or start >= len(comps) or to >= len(comps):
            return False
        if entry >= sum(e[1] == to for e in entries):
            return False
        if not runtime <= offset < first < second < len(code):
            return False
        if code[first:first + 3] != WRPKRU or code[second:second + 3] != WRPKRU:
            return False
    return True


def in_stack(mechanism, n, pages, threads, rsp):
    halves = mechanism in (2, 3)
    size = pages * PAGE
    number, offset = divmod(rsp - 0x20001000, 2 * size + 0x2000)
    return 0 <= number < threads * (n if halves else 1) and offset < size * (2 if halves else 1)


def read(data):
    b = Bytes(data)
    if b.take(4) != b"FXIM":
        raise Refused("Magic")
    version = b.number("H")
    if version not in (1, 2):
        raise Refused("Version")
    mechanism = b.number("B")
    demand(3, mechanism <= 3)
    keyed = mechanism in (1, 2)
    n = b.number("B")
    demand(4, 1 <= n <= (16 if mechanism == 3 else 8))
    pages, threads = b.numbers("BB") if version == 2 else (b.number("B"), 8)
    demand(5, 1 <= pages <= 64, threads in (8, 16))
    scheduler = b.number("B")
    demand(6, scheduler < n)
    demand(7, b.number("B") < n)
    comps = [(b.name(), *b.numbers("III")) for _ in range(n)]
    demand(
        8,
        all(C_NAME.fullmatch(c[0]) for c in comps),
        len({c[0] for c in comps}) == n,
        are_ranges(comps),
    )
    if version == 2:
        sections = [b.numbers("HHBII") for _ in range(b.number("H"))]
    else:
        sections = [(s[0], *s) for s in [b.numbers("HBII") for _ in range(b.number("H"))]]
    demand(
        9,
        are_pairs(version, n, sections),
        not keyed or len(sections) <= 14,
        [s[2] for s in sections] == [2 + k if keyed else 0 for k in range(len(sections))],
        are_spread(sections),
        sum(s[4] for s in sections) <= 16384,
        lambda: [c[3] for c in comps] == [pkru(sections, scheduler, c) if keyed else 0 for c in range(n)],
    )
    code = b.block()
    runtime = sum(c[2] for c in comps)
    demand(10, len(code) % PAGE == 0, runtime <= len(code) <= 2 ** 20)
    demand(11, len(b.block()) <= 2 ** 23)
    objects = [(b.name(), *b.numbers("HQI"), b.block()) for _ in range(b.number("I"))]
    demand(12, are_objects(sections, objects))
    entries = [(b.name(), *b.numbers("BHH")) for _ in range(b.number("H"))]
    demand(13, are_entries(comps, entries))
    stubs = [b.numbers("BBHIII") for _ in range(b.number("H"))]
    demand(14, are_stubs(keyed, comps, code, runtime, entries, stubs))
    demand(15, runtime <= b.number("I") < len(code))
    demand(16, all(owner < n for owner in b.take(16)))
    starts = [b.numbers("IQ") for _ in range(b.number("B"))]
    demand(
        17,
        len(starts) == (n if mechanism == 3 else 1),
        all(0x400000 <= rip < 0x400000 + len(code) and rsp % 16 == 0 for rip, rsp in starts),
        all(in_stack(mechanism, n, pages, threads, rsp) for _, rsp in starts),
    )
    if b.at < len(data):
        raise Refused("Extra")
    listed = {at for s in stubs for at in s[4:]}
    at = code.find(WRPKRU)
    while at >= 0:
        if at not in listed:
            raise Refused(f"KeySequence {at}")
        at = code.find(WRPKRU, at + 1)


def answer(data):
    try:
        read(data)
    except Refused as refusal:
        return str(refusal)
    return "image"


def named(text):
    return bytes([len(text)]) + text


def block(data):
    return struct.pack("<I", len(data)) + data


def table(form, rows):
    return struct.pack("<" + form, len(rows)) + b"".join(rows)


def section_of(version, section):
    return struct.pack("<HHBII", *section) if version == 2 else struct.pack("<HBII", *section[1:])


def object_of(name, section, address, size, initial=b""):
    return named(name) + struct.pack("<HQI", section, address, size) + block(initial)


def image(mechanism, version):
    """Three compartments of one, two and no pages, and a page of the runtime."""
    keyed = mechanism in (1, 2)
    pairs = [(1, 1), (2, 2), (4, 4), (7, 7), (3, 1) if version == 2 else (3, 3)]
    sections, page = [], 0x10000
    for k, (readers, writers) in enumerate(pairs):
        sections.append((readers, writers, 2 + k if keyed else 0, page, 1 + k % 2))
        page += 2 + k % 2
    lengths, starts = [PAGE, 2 * PAGE, 0], [0, PAGE, 3 * PAGE]
    code = bytearray(b"\xf4" * 4 * PAGE)
    stubs = [(0, 1, 0), (2, 0, 1)] if keyed else []
    for k in range(len(stubs)):
        at = 3 * PAGE + 64 + 256 * k
        code[at + 16:at + 19] = code[at + 48:at + 51] = WRPKRU
        stubs[k] += (at, at + 16, at + 48)
    first = [s[3] * PAGE for s in sections]
    vcpus = 3 if mechanism == 3 else 1
    return b"".join([
        b"FXIM",
        struct.pack("<HBB", version, mechanism, 3),
        bytes([4, 16] if version == 2 else [4]),
        bytes([1, 0]),
        *(
            named(b"abc"[c:c + 1])
            + struct.pack("<III", starts[c], lengths[c], pkru(sections, 1, c) if keyed else 0)
            for c in range(3)
        ),
        table("H", [section_of(version, s) for s in sections]),
        block(code),
        block(b"hello\0"),
        table("I", [
            object_of(b".rt.a", 0, first[0], PAGE, b"\x07"),
            object_of(b".rt.b", 1, first[1], PAGE),
            object_of(b"b", 1, first[1] + PAGE + 16, 8, b"\0\0\x01"),
            object_of(b"empty", 1, first[1] + PAGE + 40, 0),
            object_of(b".rt.c", 2, first[2], PAGE),
            object_of(b"shared_", 4, first[4] + 1, 31, bytes(range(1, 32))),
        ]),
        table("H", [
            named(b"main") + struct.pack("<BHH", 0, 0, 0),
            named(b"ping") + struct.pack("<BHH", 0, 1, 6),
            named(b"pong") + struct.pack("<BHH", 1, 0, 1),
        ]),
        table("H", [struct.pack("<BBHIII", *s) for s in stubs]),
        struct.pack("<I", 3 * PAGE + 1024),
        bytes([0, 1, 2, 0] * 4),
        table("B", [struct.pack("<IQ", 0x400000 + 3 * PAGE, 0x20004FE0)] * vcpus),
    ])


def many_objects(count):
    """One compartment under `call` with that many objects of 16 bytes."""
    pages = count * 32 // PAGE + 1
    return b"".join([
        b"FXIM", struct.pack("<HBBBBBB", 2, 0, 1, 4, 16, 0, 0),
        named(b"a") + struct.pack("<III", 0, PAGE, 0),
        table("H", [section_of(2, (1, 1, 0, 0x10000, pages))]),
        block(b"\xf4" * 2 * PAGE), block(b""),
        table("I", [object_of(b"o%d" % k, 0, 0x10000000 + 32 * k, 16) for k in range(count)]),
        table("H", []), table("H", []),
        struct.pack("<I", PAGE), bytes(16), table("B", [struct.pack("<IQ", 0x401000, 0x20004FE0)]),
    ])


def changes_of(data, draws):
    """Each bit flipped alone, all bits of a byte, and drawn changes of up to four bytes."""
    code = range(data.index(b"\xf4" * 16), data.rindex(b"\xf4" * 16) + 16)
    for at, byte in enumerate(data):
        for mask in [1 << at % 8] if at in code else [1 << bit for bit in range(8)] + [0xFF]:
            yield {at: byte ^ mask}
    draw = random.Random(len(data))
    places = [at for at in range(len(data)) if at not in code]
    values = [0, 1, 2, 16, 255]
    for _ in range(draws):
        yield {draw.choice(places): draw.choice([*values, draw.randrange(256)]) for _ in range(draw.randint(2, 4))}


def changed(data, change):
    new = bytearray(data)
    for at, byte in change.items():
        new[at] = byte
    return bytes(new)


def put(data, change):
    first, last = min(change), max(change)
    return f"put {first} {changed(data, change)[first:last + 1].hex()}"


def compare(label, data, draws):
    """The numbers of answers, and of those that differ; prints the first of them."""
    changes = list(changes_of(data, draws))
    lines = [f"image {data.hex()}"] + [put(data, c) for c in changes]
    lines += [f"cut {n}" for n in range(len(data))] + ["add 00"]
    wanted = [answer(data)] + [answer(changed(data, c)) for c in changes]
    wanted += [answer(data[:n]) for n in range(len(data))] + [answer(data + b"\0")]
    ran = subprocess.run([PROGRAM], input="\n".join(lines) + "\n", capture_output=True, text=True)
    given = ran.stdout.splitlines()
    different = [i for i in range(len(lines)) if i >= len(given) or given[i] != wanted[i]]
    for i in different[:5]:
        print(f"different: {label}: {lines[i][:80]}: {given[i] if i < len(given) else None}, wanted {wanted[i]}")
    if ran.returncode or len(given) != len(lines) or wanted[0] != "image":
        print(f"{label}: status {ran.returncode}, {len(given)} answers to {len(lines)} lines, {wanted[0]}")
        return len(lines), max(1, len(different))
    found = wanted.count("image")
    print(f"{label}: {len(data)} bytes, {len(changes)} changes, {len(data)} prefixes, images among them {found}")
    return len(lines), len(different)


def compare_many():
    """Images of the most objects and of one more, with the time of an answer."""
    different = 0
    for count, wanted in [(32016, "image"), (32017, "Field 12")]:
        data = many_objects(count)
        started = time.monotonic()
        ran = subprocess.run([PROGRAM], input=f"image {data.hex()}\n", capture_output=True, text=True)
        seconds = time.monotonic() - started
        print(f"{count} objects: {ran.stdout.strip()}, {seconds:.2f} s")
        different += ran.stdout.strip() != wanted or answer(data) != wanted
    return different


def main():
    if not PROGRAM.exists():
        print("flip_image: the program isn't built")
        return 1
    draws = int(sys.argv[1]) if len(sys.argv) > 1 else DRAWS
    answers, different = 2, compare_many()
    for version in (1, 2):
        for word, number in MECHANISMS.items():
            more, wrong = compare(f"{word}, version {version}", image(number, version), draws)
            answers, different = answers + more, different + wrong
    print(f"answers compared {answers}, different {different}")
    return 1 if different else 0


if __name__ == "__main__":
    sys.exit(main())
