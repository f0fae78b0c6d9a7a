#!/usr/bin/env python3
"""A second reader of images and a second machine, for comparing with `flexos run`.

This file is written from the description of the image format and of the machine
alone, not from the code of the program, and shares nothing with it.  It needs
nothing but the standard library.  It has four parts:

* a reader of images of versions 1 and 2 that gives the first refusal;
* a machine: pages with keys and PKRU, one address space per virtual processor
  under `ept`, mailboxes, device pages, stacks with high halves, the instruction
  subset with all its flags, the stock devices (a block store of 65,536 words as
  device 1, a counter from 0 as device 2) and the console as device 0;
* the command `run` with its options, its lines and its statuses;
* a generator of images with random code, a generator of broken images, and a
  driver that runs random cases through this model and through the program.

Usage:

    second_machine.py run IMAGE [--steps N] [--schedule FILE] [--unplug D N]
        print what `flexos run` must print, with its status; input comes from
        standard input
    second_machine.py check
        run the model's own small checks
    second_machine.py make SEED FOLDER
        write the random case SEED into FOLDER and print its words
    second_machine.py compare PROGRAM COUNT FOLDER [FIRST [KIND]]
        run the cases FIRST to FIRST + COUNT - 1 (of one kind alone, where it is
        given) through both; each difference is printed, and its files are kept in
        FOLDER; an interrupt or a request to end gives the counts up to there
"""

import os
import random
import shutil
import signal
import struct
import subprocess
import sys
import tempfile

M64 = (1 << 64) - 1
M32 = (1 << 32) - 1
PAGE = 4096
CODE = 0x400000
LITERALS = 0x600000
MAILBOXES = 0xE000000
THREAD = 0xF000000
DEVICES = 0xF100000
SECTIONS = 0x10000000
STACKS = 0x20000000
CALL, LIGHT, FULL, EPT = 0, 1, 2, 3
KEY_WRITE = b"\x0f\x01\xef"
FILE_LIMIT = 16777216
BUDGET = 50000000


# ---------------------------------------------------------------- the image

class Refused(Exception):
    """The refusal of an image: its kind and its numbers."""

    def __init__(self, kind, *numbers):
        super().__init__(kind, *numbers)
        self.line = " ".join(["refused: image", kind] + [str(x) for x in numbers])


class Record:
    """A record with named parts."""

    def __init__(self, **parts):
        self.__dict__.update(parts)

    def copy(self):
        return Record(**self.__dict__)


class Reader:
    """Takes bytes from the front; too few bytes are Short."""

    def __init__(self, data):
        self.data = data
        self.at = 0

    def take(self, count):
        if len(self.data) - self.at < count:
            raise Refused("Short")
        self.at += count
        return self.data[self.at - count:self.at]

    def number(self, size):
        return int.from_bytes(self.take(size), "little")

    def name(self):
        return self.take(self.number(1))


def is_c_name(name):
    """A C name of at most 63 bytes."""
    letters = b"ABCDEFGHIJKLMNOPQRSTUVWXYZabcdefghijklmnopqrstuvwxyz_"
    if not 1 <= len(name) <= 63 or name[0] not in letters:
        return False
    return all(x in letters or x in b"0123456789" for x in name)


def is_object_name(name):
    return is_c_name(name) or (name[:4] == b".rt." and is_c_name(name[4:]))


def key_rule(mechanism, place):
    return 2 + place if mechanism in (LIGHT, FULL) else 0


def pkru_of(mechanism, sections, scheduler, compartment):
    """The PKRU value of a compartment."""
    if mechanism not in (LIGHT, FULL):
        return 0
    value = 0
    for key in range(2, 16):
        readers = writers = 0
        for section in sections:
            if section.key == key:
                readers, writers = section.readers, section.writers
        if not readers >> compartment & 1:
            value |= 1 << (2 * key)
        if not writers >> compartment & 1:
            value |= 1 << (2 * key + 1)
    if compartment != scheduler:
        value |= 1 << 3
    return value


def read_image(data):
    """The image that the bytes spell, or the first refusal."""
    take = Reader(data)
    image = Record()

    def rule(field, holds):
        if not holds:
            raise Refused("Field", field)

    if take.take(4) != b"FXIM":
        raise Refused("Magic")
    image.version = take.number(2)
    if image.version not in (1, 2):
        raise Refused("Version")
    image.mechanism = take.number(1)
    rule(3, image.mechanism <= EPT)
    n = image.n = take.number(1)
    rule(4, 1 <= n <= (16 if image.mechanism == EPT else 8))
    image.stack_pages = take.number(1)
    image.threads = take.number(1) if image.version == 2 else 8
    rule(5, 1 <= image.stack_pages <= 64 and image.threads in (8, 16))
    image.scheduler = take.number(1)
    rule(6, image.scheduler < n)
    image.home = take.number(1)
    rule(7, image.home < n)

    image.comps = []
    for _ in range(n):
        name = take.name()
        start, length, pkru = take.number(4), take.number(4), take.number(4)
        image.comps.append(Record(name=name, start=start, len=length, pkru=pkru))
    end = 0
    for comp in image.comps:
        rule(8, is_c_name(comp.name))
        rule(8, comp.start % PAGE == 0 and comp.len % PAGE == 0)
        rule(8, comp.start == end)
        end = comp.start + comp.len
    rule(8, len({comp.name for comp in image.comps}) == n)
    image.runtime = end

    image.sections = []
    for _ in range(take.number(2)):
        readers = take.number(2)
        writers = take.number(2) if image.version == 2 else readers
        key, page, pages = take.number(1), take.number(4), take.number(4)
        image.sections.append(
            Record(readers=readers, writers=writers, key=key, page=page, pages=pages))
    everyone = (1 << n) - 1
    first = [(1 << c, 1 << c) for c in range(n)] + ([(everyone, everyone)] if n > 1 else [])
    pairs = [(s.readers, s.writers) for s in image.sections]
    rule(9, all(w != 0 and w & ~r == 0 and r <= everyone for r, w in pairs))
    rule(9, len(set(pairs)) == len(pairs))
    rule(9, pairs[:len(first)] == first)
    rule(9, image.mechanism not in (LIGHT, FULL) or len(pairs) <= 14)
    page = SECTIONS // PAGE
    for place, section in enumerate(image.sections):
        rule(9, section.key == key_rule(image.mechanism, place))
        rule(9, section.page == page and section.pages >= 1)
        page = section.page + section.pages + 1
    rule(9, sum(s.pages for s in image.sections) <= 16384)
    for c, comp in enumerate(image.comps):
        rule(9, comp.pkru == pkru_of(image.mechanism, image.sections, image.scheduler, c))

    image.code = take.take(take.number(4))
    rule(10, len(image.code) % PAGE == 0 and len(image.code) <= 1048576)
    rule(10, len(image.code) >= image.runtime)
    image.literals = take.take(take.number(4))
    rule(11, len(image.literals) <= 8388608)

    image.objects = []
    count = take.number(4)
    for _ in range(count):
        name = take.name()
        section, address, size = take.number(2), take.number(8), take.number(4)
        initial = take.take(take.number(4))
        image.objects.append(Record(
            name=name, section=section, address=address, size=size, initial=initial))
    rule(12, count <= 32016)
    least = 0
    for item in image.objects:
        rule(12, is_object_name(item.name))
        rule(12, item.section < len(image.sections))
        section = image.sections[item.section]
        rule(12, section.page * PAGE <= item.address)
        rule(12, item.address + item.size <= (section.page + section.pages) * PAGE)
        rule(12, item.address >= least)
        least = item.address + item.size + 16
        rule(12, len(item.initial) <= item.size)
        rule(12, not item.initial or item.initial[-1] != 0)
    rule(12, len({item.name for item in image.objects}) == count)

    image.entries = []
    for _ in range(take.number(2)):
        name = take.name()
        compartment, number, callers = take.number(1), take.number(2), take.number(2)
        image.entries.append(Record(
            name=name, compartment=compartment, number=number, callers=callers))
    counts = [0] * n
    former = 0
    for entry in image.entries:
        rule(13, is_c_name(entry.name))
        rule(13, former <= entry.compartment < n)
        former = entry.compartment
        rule(13, entry.number == counts[former])
        counts[former] += 1
        rule(13, 16 * entry.number < image.comps[former].len)
        rule(13, entry.callers <= everyone)

    image.stubs = []
    for _ in range(take.number(2)):
        origin, target, entry = take.number(1), take.number(1), take.number(2)
        offset, one, two = take.number(4), take.number(4), take.number(4)
        image.stubs.append(Record(
            origin=origin, target=target, entry=entry, offset=offset, first=one, second=two))
    rule(14, not image.stubs or image.mechanism in (LIGHT, FULL))
    for stub in image.stubs:
        rule(14, stub.origin < n and stub.target < n and stub.origin != stub.target)
        rule(14, stub.entry < counts[stub.target])
        rule(14, image.runtime <= stub.offset < stub.first < stub.second < len(image.code))
        for place in (stub.first, stub.second):
            rule(14, image.code[place:place + 3] == KEY_WRITE)

    image.abort = take.number(4)
    rule(15, image.runtime <= image.abort < len(image.code))
    image.owners = list(take.take(16))
    rule(16, all(owner < n for owner in image.owners))

    image.starts = []
    for _ in range(take.number(1)):
        image.starts.append(Record(rip=take.number(4), rsp=take.number(8)))
    rule(17, len(image.starts) == (n if image.mechanism == EPT else 1))
    for start in image.starts:
        rule(17, CODE <= start.rip < CODE + len(image.code))
        place = stack_of(image, start.rsp)
        rule(17, start.rsp % 16 == 0 and place is not None)
        rule(17, image.mechanism in (FULL, EPT) or place[1] < image.stack_pages * PAGE)

    if take.at != len(data):
        raise Refused("Extra")
    listed = {s.first for s in image.stubs} | {s.second for s in image.stubs}
    at = image.code.find(KEY_WRITE)
    while at >= 0:
        if at not in listed:
            raise Refused("KeySequence", at)
        at = image.code.find(KEY_WRITE, at + 1)
    return image


def stacks_of(image):
    """How many stacks an image has."""
    return image.threads * (image.n if image.mechanism in (FULL, EPT) else 1)


def stack_of(image, address):
    """The stack whose low or high half holds the address, and the distance."""
    if address < STACKS:
        return None
    size = image.stack_pages * PAGE
    number, rest = divmod(address - STACKS, 2 * size + 0x2000)
    if number >= stacks_of(image) or not 0 <= rest - 0x1000 < 2 * size:
        return None
    return number, rest - 0x1000


def object_at(image, address):
    """The words for the object or stack of an address, with the offset; or None."""
    for item in image.objects:
        if item.address <= address < item.address + item.size:
            return "object", "%s+%d" % (item.name.decode(), address - item.address)
    place = stack_of(image, address)
    if place is None:
        return None
    if image.mechanism in (FULL, EPT):
        thread, compartment = divmod(place[0], image.n)
        owner = image.comps[compartment].name.decode()
        return "stack", "stack %d/%s+%d" % (thread, owner, place[1])
    return "stack", "stack %d+%d" % place


# ---------------------------------------------------------- the instructions

ALU = {"add": 0x01, "sub": 0x29, "and": 0x21, "or": 0x09, "xor": 0x31, "cmp": 0x39, "test": 0x85}
ALU_IMM = {"add": 0, "or": 1, "and": 4, "sub": 5, "xor": 6, "cmp": 7}
SHIFT = {"shl": 4, "shr": 5, "sar": 7}
UNARY = {"not": 2, "neg": 3, "div": 6, "idiv": 7}
CONDS = (0, 1, 2, 3, 4, 5, 6, 7, 8, 9, 12, 13, 14, 15)


def spell(wide, opcode, reg, rm, disp=None, bytes_=(), prefix=b"", digit=None):
    """One spelling with a ModRM byte; `reg` is None where `digit` stands there."""
    rex = 0x40 | (8 if wide else 0) | (4 if (reg or 0) >= 8 else 0) | (1 if rm >= 8 else 0)
    out = prefix
    if rex != 0x40 or any(4 <= x <= 7 for x in bytes_):
        out += bytes([rex])
    middle = (digit if reg is None else reg & 7) << 3
    out += opcode
    if disp is None:
        return out + bytes([0xC0 | middle | rm & 7])
    out += bytes([0x80 | middle | rm & 7])
    if rm & 7 == 4:
        out += b"\x24"
    return out + struct.pack("<i", disp)


def encode(inst):
    """The one spelling of an instruction."""
    op = inst[0]
    if op == "mov":
        _, w, dst, src = inst
        return spell(w == 64, b"\x89", src, dst)
    if op == "load":
        _, w, dst, base, disp = inst
        return spell(w == 64, b"\x8b", dst, base, disp)
    if op == "loadzero":
        _, w, dst, base, disp = inst
        return spell(False, b"\x0f\xb6" if w == 8 else b"\x0f\xb7", dst, base, disp)
    if op == "loadsign":
        _, w, dst, base, disp = inst
        return spell(True, {8: b"\x0f\xbe", 16: b"\x0f\xbf", 32: b"\x63"}[w], dst, base, disp)
    if op == "zero":
        _, w, dst, src = inst
        return spell(False, b"\x0f\xb6" if w == 8 else b"\x0f\xb7", dst, src,
                     bytes_=(src,) if w == 8 else ())
    if op == "sign":
        _, w, dst, src = inst
        return spell(True, {8: b"\x0f\xbe", 16: b"\x0f\xbf", 32: b"\x63"}[w], dst, src)
    if op == "store":
        _, w, base, disp, src = inst
        return spell(w == 64, b"\x88" if w == 8 else b"\x89", src, base, disp,
                     (src,) if w == 8 else (), b"\x66" if w == 16 else b"")
    if op == "movimm":
        _, dst, imm = inst
        return spell(True, b"\xc7", None, dst, digit=0) + struct.pack("<i", imm)
    if op == "movimm64":
        _, dst, imm = inst
        return bytes([0x49 if dst >= 8 else 0x48, 0xB8 + (dst & 7)]) + struct.pack("<Q", imm)
    if op == "lea":
        _, dst, base, disp = inst
        return spell(True, b"\x8d", dst, base, disp)
    if op == "alu":
        _, kind, w, dst, src = inst
        return spell(w == 64, bytes([ALU[kind]]), src, dst)
    if op == "aluimm":
        _, kind, w, dst, imm = inst
        return spell(w == 64, b"\x81", None, dst, digit=ALU_IMM[kind]) + struct.pack("<i", imm)
    if op == "imul":
        _, w, dst, src = inst
        return spell(w == 64, b"\x0f\xaf", dst, src)
    if op == "shift":
        _, kind, w, dst = inst
        return spell(w == 64, b"\xd3", None, dst, digit=SHIFT[kind])
    if op == "unary":
        _, kind, w, reg = inst
        return spell(w == 64, b"\xf7", None, reg, digit=UNARY[kind])
    if op == "setcc":
        _, cond, dst = inst
        return spell(False, bytes([0x0F, 0x90 + cond]), None, dst, bytes_=(dst,), digit=0)
    if op == "jcc":
        return bytes([0x0F, 0x80 + inst[1]]) + struct.pack("<i", inst[2])
    if op == "jmp":
        return b"\xe9" + struct.pack("<i", inst[1])
    if op == "call":
        return b"\xe8" + struct.pack("<i", inst[1])
    if op in ("push", "pop"):
        base = 0x50 if op == "push" else 0x58
        return (b"\x41" if inst[1] >= 8 else b"") + bytes([base + (inst[1] & 7)])
    return {"cqo": b"\x48\x99", "ret": b"\xc3", "hlt": b"\xf4", "nop": b"\x90",
            "wrpkru": KEY_WRITE, "rdpkru": b"\x0f\x01\xee"}[op]


def guess(b):
    """An instruction that the whole of `b` might spell, or None.

    Whether it does is left to `encode`.
    """
    at = 1 if b[0] == 0x66 else 0
    rex = 0
    if at < len(b) and b[at] & 0xF0 == 0x40:
        rex = b[at]
        at += 1
    wide, high_reg, high_rm = rex >> 3 & 1, (rex >> 2 & 1) << 3, (rex & 1) << 3
    w = 64 if wide else 32
    if at == len(b):
        return None
    two = b[at] == 0x0F
    if two:
        at += 1
        if at == len(b):
            return None
    op = b[at]
    rest = b[at + 1:]
    name = {v: k for k, v in ALU.items()}
    if not two and 0x50 <= op <= 0x5F:
        return ("push" if op < 0x58 else "pop", op & 7 | high_rm)
    if not two and 0xB8 <= op <= 0xBF:
        return ("movimm64", op & 7 | high_rm, int.from_bytes(rest, "little")) if len(rest) == 8 else None
    plain = {0x99: "cqo", 0xC3: "ret", 0xF4: "hlt", 0x90: "nop"}
    if not two and op in plain:
        return (plain[op],)
    if two and op == 0x01:
        return {b"\xef": ("wrpkru",), b"\xee": ("rdpkru",)}.get(bytes(rest))
    if two and 0x80 <= op <= 0x8F or not two and op in (0xE8, 0xE9):
        if len(rest) != 4:
            return None
        rel = int.from_bytes(rest, "little", signed=True)
        if two:
            return ("jcc", op & 15, rel) if op & 15 in CONDS else None
        return ("call" if op == 0xE8 else "jmp", rel)
    if not rest:
        return None
    form, reg, rm = rest[0] >> 6, rest[0] >> 3 & 7, rest[0] & 7 | high_rm
    digit = reg
    reg |= high_reg
    rest = rest[1:]
    memory = form == 2
    disp = None
    if memory:
        if rm & 7 == 4:
            if not rest or rest[0] != 0x24:
                return None
            rest = rest[1:]
        if len(rest) != 4:
            return None
        disp = int.from_bytes(rest, "little", signed=True)
    elif form != 3:
        return None
    elif not two and op in (0xC7, 0x81):
        if len(rest) != 4:
            return None
        imm = int.from_bytes(rest, "little", signed=True)
        if op == 0xC7:
            return ("movimm", rm, imm) if digit == 0 else None
        kinds = {v: k for k, v in ALU_IMM.items()}
        return ("aluimm", kinds[digit], w, rm, imm) if digit in kinds else None
    elif rest:
        return None
    if two:
        if op in (0xB6, 0xB7):
            size = 8 if op == 0xB6 else 16
            return ("loadzero", size, reg, rm, disp) if memory else ("zero", size, reg, rm)
        if op in (0xBE, 0xBF):
            size = 8 if op == 0xBE else 16
            return ("loadsign", size, reg, rm, disp) if memory else ("sign", size, reg, rm)
        if op == 0xAF and not memory:
            return ("imul", w, reg, rm)
        if 0x90 <= op <= 0x9F and not memory and digit == 0 and op & 15 in CONDS:
            return ("setcc", op & 15, rm)
        return None
    if op == 0x63:
        return ("loadsign", 32, reg, rm, disp) if memory else ("sign", 32, reg, rm)
    if op == 0x8B and memory:
        return ("load", w, reg, rm, disp)
    if op == 0x88 and memory:
        return ("store", 8, rm, disp, reg)
    if op == 0x89:
        if memory:
            return ("store", 16 if b[0] == 0x66 else w, rm, disp, reg)
        return ("mov", w, rm, reg)
    if op == 0x8D and memory:
        return ("lea", reg, rm, disp)
    if memory:
        return None
    if op in name:
        return ("alu", name[op], w, rm, reg)
    kinds = {v: k for k, v in (SHIFT if op == 0xD3 else UNARY).items()}
    if op in (0xD3, 0xF7) and digit in kinds:
        return ("shift" if op == 0xD3 else "unary", kinds[digit], w, rm)
    return None


def decode_whole(b):
    """The instruction whose spelling is exactly `b`, or None."""
    inst = guess(b)
    return inst if inst is not None and encode(inst) == bytes(b) else None


# --------------------------------------------------------------- the machine

class Trap(Exception):
    """A trap of one instruction: its kind, and for `page` the address,
    the kind of access and the refusal."""

    def __init__(self, kind, address=None, access=None, refusal=None):
        super().__init__(kind)
        self.kind, self.address, self.access, self.refusal = kind, address, access, refusal


class BlockStore:
    """Register 0 is the position, register 1 the word there."""

    def __init__(self, words):
        self.words, self.at, self.held = words, 0, {}

    def load(self, reg):
        if reg == 0:
            return self.at
        return self.held.get(self.at, 0) if reg == 1 else 0

    def store(self, reg, value):
        if reg == 0:
            self.at = value
        elif reg == 1 and self.at < self.words:
            self.held[self.at] = value


class Counter:
    """A load of register 0 gives the number and adds one; a store sets it."""

    def __init__(self, start):
        self.number = start

    def load(self, reg):
        if reg != 0:
            return 0
        self.number = (self.number + 1) & M64
        return (self.number - 1) & M64

    def store(self, reg, value):
        if reg == 0:
            self.number = value


class Cpu:
    """The registers of one virtual processor."""

    def __init__(self, rip, rsp, pkru):
        self.g = [0] * 16
        self.g[4] = rsp
        self.rip, self.pkru = rip, pkru
        self.cf = self.zf = self.sf = self.of = False
        self.known = {}


class Machine:
    """The emulated machine at work on one image."""

    def __init__(self, image, source, unplug=None):
        self.image = image
        self.source = source
        self.taken = 0
        self.out = bytearray()
        self.boxes = {1: BlockStore(65536), 2: Counter(0)}
        self.unplug = unplug
        self.counts = [0] * 16
        self.frames = {}
        self.size = image.stack_pages * PAGE
        self.keyed = image.mechanism in (LIGHT, FULL)
        self.all_key = image.sections[image.n if image.n > 1 else 0].key
        pkru = image.comps[image.home].pkru
        self.cpus = [Cpu(s.rip, s.rsp, pkru) for s in image.starts]
        self.spaces = [{} for _ in self.cpus]
        for item in image.objects:
            for i, byte in enumerate(item.initial):
                self.frame((item.address + i) >> 12)[(item.address + i) & 4095] = byte
        self.pull()

    # -- pages and frames

    def frame(self, page):
        """The bytes of a page; each page number has one frame in all spaces."""
        found = self.frames.get(page)
        if found is not None:
            return found
        image = self.image
        held = b""
        start = page << 12
        if CODE <= start < CODE + len(image.code):
            held = image.code[start - CODE:start - CODE + PAGE]
        elif LITERALS <= start < LITERALS + len(image.literals):
            held = image.literals[start - LITERALS:start - LITERALS + PAGE]
        found = bytearray(held) + bytearray(PAGE - len(held))
        place = stack_of(image, start)
        if place is not None and place[1] == self.size - PAGE:
            found[PAGE - 32:PAGE - 24] = struct.pack("<Q", CODE + image.abort)
        self.frames[page] = found
        return found

    def entry(self, v, page):
        """(write, exec, device, key) of a page in a space, or None."""
        space = self.spaces[v]
        if page not in space:
            space[page] = self.walk(v, page)
        return space[page]

    def walk(self, v, page):
        image, start = self.image, page << 12
        ept = image.mechanism == EPT
        if CODE <= start < CODE + len(image.code):
            at = start - CODE
            comp = image.comps[v] if ept else None
            if ept and at < image.runtime and not comp.start <= at < comp.start + comp.len:
                return None
            return (False, True, None, 0)
        if LITERALS <= start < LITERALS + len(image.literals):
            return (False, False, None, 0)
        if MAILBOXES <= start < MAILBOXES + 256 * PAGE:
            c, d = divmod((start - MAILBOXES) // PAGE, 16)
            if ept and c != d and c < image.n and d < image.n and v in (c, d):
                return (True, False, None, 0)
            return None
        if start == THREAD:
            return (not ept or v == image.scheduler, False, None, 1 if self.keyed else 0)
        if DEVICES <= start < DEVICES + 16 * PAGE:
            device = (start - DEVICES) // PAGE
            owner = image.owners[device]
            if ept and owner != v:
                return None
            return (True, False, device, image.sections[owner].key)
        if SECTIONS <= start < STACKS:
            for section in image.sections:
                if section.page <= page < section.page + section.pages:
                    if ept and not section.readers >> v & 1:
                        return None
                    return (not ept or bool(section.writers >> v & 1), False, None, section.key)
            return None
        place = stack_of(image, start)
        if place is None:
            return None
        number, distance = place
        if distance >= self.size:
            return (True, False, None, self.all_key) if image.mechanism in (FULL, EPT) else None
        if image.mechanism in (FULL, EPT):
            owner = number % image.n
            if ept and owner != v:
                return None
            return (True, False, None, image.sections[owner].key)
        return (True, False, None, self.all_key)

    def check(self, v, pkru, address, size, access):
        """The first byte refused decides; gives the device, if the page is one."""
        entry = None
        for at in range(size):
            byte = (address + at) & M64
            if at and byte & 4095:
                continue
            entry = self.entry(v, byte >> 12)
            if entry is None:
                raise Trap("page", byte, access, "Unmapped")
            write, execute, device, key = entry
            if access == "write" and not write or access == "fetch" and not execute:
                raise Trap("page", byte, access, "Permission")
            if device is not None and (size != 8 or address & 7):
                raise Trap("page", byte, access, "Permission")
            bits = pkru >> (2 * key)
            if access == "read" and bits & 1 or access == "write" and bits & 3:
                raise Trap("page", byte, access, "Key")
        return entry[2]

    def load(self, v, address, w):
        size = w // 8
        address &= M64
        device = self.check(v, self.cpus[v].pkru, address, size, "read")
        if device is not None:
            return self.device_load(device, (address & 4095) // 8)
        at = address & 4095
        if at + size <= PAGE:
            return int.from_bytes(self.frame(address >> 12)[at:at + size], "little")
        held = bytes(self.frame(((address + i) & M64) >> 12)[(address + i) & 4095]
                     for i in range(size))
        return int.from_bytes(held, "little")

    def store(self, v, address, w, value):
        size = w // 8
        address &= M64
        value &= (1 << w) - 1
        device = self.check(v, self.cpus[v].pkru, address, size, "write")
        if device is not None:
            self.device_store(device, (address & 4095) // 8, value)
            return
        for i, byte in enumerate(value.to_bytes(size, "little")):
            self.frame(((address + i) & M64) >> 12)[(address + i) & 4095] = byte

    # -- devices

    def device_load(self, device, reg):
        if device == 0 and reg == 0:
            value = M64
            if self.taken < len(self.source):
                value = self.source[self.taken]
                self.taken += 1
        elif device in self.boxes:
            value = self.boxes[device].load(reg)
        else:
            value = M64
        self.counts[device] += 1
        self.pull()
        return value

    def device_store(self, device, reg, value):
        if device == 0 and reg == 0:
            self.out.append(value & 255)
        elif device in self.boxes:
            self.boxes[device].store(reg, value)
        self.counts[device] += 1
        self.pull()

    def pull(self):
        """Unplug the device where its operations have been made."""
        if self.unplug is not None and self.counts[self.unplug[0]] >= self.unplug[1]:
            self.boxes.pop(self.unplug[0], None)

    # -- instructions

    def fetch(self, v, cpu):
        """The instruction at RIP and its end.  The code never changes and no key
        refuses a fetch, so that what was found once at a place stays."""
        found = cpu.known.get(cpu.rip)
        if found is None:
            held = bytearray()
            while True:
                at = (cpu.rip + len(held)) & M64
                self.check(v, cpu.pkru, at, 1, "fetch")
                held.append(self.frame(at >> 12)[at & 4095])
                inst = decode_whole(held)
                if inst is not None:
                    break
                if len(held) == 15:
                    raise Trap("invalid")
            found = cpu.known[cpu.rip] = (inst, (cpu.rip + len(held)) & M64)
        return found

    def turn(self, v):
        """One whole instruction of the virtual processor v."""
        cpu = self.cpus[v]
        inst, after = self.fetch(v, cpu)
        g = cpu.g
        op = inst[0]
        if op == "load":
            value = self.load(v, g[inst[3]] + inst[4], inst[1])
            g[inst[2]] = value
        elif op == "store":
            self.store(v, g[inst[2]] + inst[3], inst[1], g[inst[4]])
        elif op == "mov":
            g[inst[2]] = g[inst[3]] & ((1 << inst[1]) - 1)
        elif op == "movimm":
            g[inst[1]] = inst[2] & M64
        elif op == "movimm64":
            g[inst[1]] = inst[2]
        elif op == "lea":
            g[inst[1]] = (g[inst[2]] + inst[3]) & M64
        elif op == "loadzero":
            g[inst[2]] = self.load(v, g[inst[3]] + inst[4], inst[1])
        elif op == "loadsign":
            g[inst[2]] = signed(self.load(v, g[inst[3]] + inst[4], inst[1]), inst[1]) & M64
        elif op == "zero":
            g[inst[2]] = g[inst[3]] & ((1 << inst[1]) - 1)
        elif op == "sign":
            g[inst[2]] = signed(g[inst[3]], inst[1]) & M64
        elif op in ("alu", "aluimm"):
            other = g[inst[4]] if op == "alu" else inst[4]
            self.arithmetic(cpu, inst[1], inst[2], inst[3], other)
        elif op == "imul":
            _, w, dst, src = inst
            product = signed(g[dst], w) * signed(g[src], w)
            result = product & ((1 << w) - 1)
            cpu.cf = cpu.of = signed(result, w) != product
            cpu.sf, cpu.zf = bool(result >> (w - 1)), False
            g[dst] = result
        elif op == "shift":
            self.shift(cpu, inst[1], inst[2], inst[3])
        elif op == "unary":
            self.unary(cpu, inst[1], inst[2], inst[3])
        elif op == "cqo":
            g[2] = M64 if g[0] >> 63 else 0
        elif op == "setcc":
            g[inst[2]] = g[inst[2]] & ~255 | (1 if holds(cpu, inst[1]) else 0)
        elif op == "jcc":
            if holds(cpu, inst[1]):
                after = (after + inst[2]) & M64
        elif op == "jmp":
            after = (after + inst[1]) & M64
        elif op == "call":
            self.store(v, g[4] - 8, 64, after)
            g[4] = (g[4] - 8) & M64
            after = (after + inst[1]) & M64
        elif op == "ret":
            after = self.load(v, g[4], 64)
            g[4] = (g[4] + 8) & M64
        elif op == "push":
            self.store(v, g[4] - 8, 64, g[inst[1]])
            g[4] = (g[4] - 8) & M64
        elif op == "pop":
            value = self.load(v, g[4], 64)
            g[4] = (g[4] + 8) & M64
            g[inst[1]] = value
        elif op == "hlt":
            raise Trap("halt")
        elif op == "wrpkru":
            if g[1] & M32 or g[2] & M32:
                raise Trap("protection")
            cpu.pkru = g[0] & M32
        elif op == "rdpkru":
            if g[1] & M32:
                raise Trap("protection")
            g[0], g[2] = cpu.pkru, 0
        cpu.rip = after

    @staticmethod
    def arithmetic(cpu, kind, w, dst, other):
        mask, top = (1 << w) - 1, 1 << (w - 1)
        a, b = cpu.g[dst] & mask, other & mask
        if kind == "add":
            result = (a + b) & mask
            cpu.cf = a + b > mask
            cpu.of = bool(~(a ^ b) & (a ^ result) & top)
        elif kind in ("sub", "cmp"):
            result = (a - b) & mask
            cpu.cf = a < b
            cpu.of = bool((a ^ b) & (a ^ result) & top)
        else:
            result = a | b if kind == "or" else a ^ b if kind == "xor" else a & b
            cpu.cf = cpu.of = False
        cpu.zf, cpu.sf = result == 0, bool(result & top)
        if kind not in ("cmp", "test"):
            cpu.g[dst] = result

    @staticmethod
    def shift(cpu, kind, w, dst):
        mask, top = (1 << w) - 1, 1 << (w - 1)
        a = cpu.g[dst] & mask
        count = cpu.g[1] & (w - 1)
        if kind == "shl":
            result = a << count & mask
        elif kind == "shr":
            result = a >> count
        else:
            result = signed(a, w) >> count & mask
        cpu.g[dst] = result
        if count == 0:
            return
        out = a >> (w - count) if kind == "shl" else a >> (count - 1)
        cpu.cf = bool(out & 1)
        cpu.zf, cpu.sf = result == 0, bool(result & top)
        cpu.of = False
        if count == 1 and kind == "shl":
            cpu.of = bool(result & top) != cpu.cf
        if count == 1 and kind == "shr":
            cpu.of = bool(a & top)

    @staticmethod
    def unary(cpu, kind, w, reg):
        mask, top = (1 << w) - 1, 1 << (w - 1)
        g = cpu.g
        a = g[reg] & mask
        if kind == "not":
            g[reg] = ~a & mask
        elif kind == "neg":
            result = -a & mask
            cpu.cf, cpu.of = a != 0, a == top
            cpu.zf, cpu.sf = result == 0, bool(result & top)
            g[reg] = result
        else:
            whole = (g[2] & mask) << w | g[0] & mask
            if a == 0:
                raise Trap("divide")
            if kind == "div":
                quotient, rest = divmod(whole, a)
                fits = quotient <= mask
            else:
                whole, by = signed(whole, 2 * w), signed(a, w)
                quotient = abs(whole) // abs(by)
                if (whole < 0) != (by < 0):
                    quotient = -quotient
                rest = whole - quotient * by
                fits = -top <= quotient < top
            if not fits:
                raise Trap("divide")
            g[0], g[2] = quotient & mask, rest & mask
            cpu.cf = cpu.zf = cpu.sf = cpu.of = False

    # -- the run and its lines

    def run(self, schedule, budget):
        """(status, line) of a run; with `turns` the turns that were made."""
        self.turns = 0
        while self.turns < budget:
            i = self.turns
            name = schedule[i] if i < len(schedule) else i - len(schedule)
            v = name % len(self.cpus)
            self.turns += 1
            try:
                self.turn(v)
            except Trap as trap:
                return self.stopped(v, trap)
        return 8, "steps spent: %d" % budget

    def stopped(self, v, trap):
        image, cpu = self.image, self.cpus[v]
        if trap.kind == "halt":
            code, first, second = cpu.g[0], cpu.g[7], cpu.g[6]
            if code == 0:
                return 0, "exit %d in %d turns" % (signed(first, 64), self.turns)
            if code == 1:
                stack = str(second)
                if not image.mechanism in (FULL, EPT):
                    stack = "common"
                elif second < image.n:
                    stack = image.comps[second].name.decode()
                return 7, "stack full: thread %d stack %s" % (first, stack)
            if code in (2, 3):
                return 9, "bad thread" if code == 2 else "threads full"
            return 10, "broken: aborted"
        if trap.kind == "divide":
            return 9, "divide"
        if trap.kind != "page":
            return 10, "broken: " + trap.kind
        found = object_at(image, trap.address) if trap.access != "fetch" else None
        ept = image.mechanism == EPT
        if found is not None and (
                trap.refusal == "Key" or ept and trap.refusal == "Unmapped"
                or ept and trap.refusal == "Permission" and trap.access == "write"
                and found[0] == "object"):
            who = "none"
            if ept:
                who = image.comps[v].name.decode()
            elif self.keyed:
                for comp in image.comps:
                    if comp.pkru == cpu.pkru:
                        who = comp.name.decode()
            return 1, "denied: compartment %s %s %s" % (who, trap.access, found[1])
        return 10, "broken: page %016x" % trap.address


def signed(value, w):
    value &= (1 << w) - 1
    return value - (1 << w) if value >> (w - 1) else value


def holds(cpu, cond):
    """Whether a condition code holds."""
    pair = cond >> 1
    if pair == 0:
        value = cpu.of
    elif pair == 1:
        value = cpu.cf
    elif pair == 2:
        value = cpu.zf
    elif pair == 3:
        value = cpu.cf or cpu.zf
    elif pair == 4:
        value = cpu.sf
    elif pair == 6:
        value = cpu.sf != cpu.of
    else:
        value = cpu.zf or cpu.sf != cpu.of
    return value != bool(cond & 1)


# --------------------------------------------------------------- the command

def number_of(word):
    """The number that a word spells, or None."""
    if not word or any(x not in "0123456789" for x in word) or len(word) > 20:
        return None
    if word[0] == "0" and word != "0":
        return None
    return int(word) if int(word) <= M64 else None


def run_words(words):
    """The options of `run IMAGE ...`, or None where the words are usage."""
    if len(words) < 2 or words[0] != "run":
        return None
    options = {"image": words[1], "steps": None, "schedule": None, "unplug": None}
    if not words[1] or words[1].startswith("-"):
        return None
    at = 2
    while at < len(words):
        name, rest = words[at], words[at + 1:]
        if name == "--steps" and rest and options["steps"] is None:
            options["steps"] = number_of(rest[0])
            if options["steps"] is None:
                return None
            at += 2
        elif name == "--schedule" and rest and options["schedule"] is None:
            if not rest[0] or rest[0].startswith("-"):
                return None
            options["schedule"] = rest[0]
            at += 2
        elif name == "--unplug" and len(rest) >= 2 and options["unplug"] is None:
            device, after = number_of(rest[0]), number_of(rest[1])
            if device is None or after is None or not 1 <= device <= 15:
                return None
            options["unplug"] = (device, after)
            at += 3
        else:
            return None
    return options


class FileFault(Exception):
    """A file that could not be read, with its line."""


def read_file(folder, name):
    try:
        with open(os.path.join(folder, name), "rb") as file:
            data = file.read(FILE_LIMIT + 1)
    except FileNotFoundError:
        raise FileFault("no file: " + name) from None
    except OSError:
        raise FileFault("file fault: " + name) from None
    if len(data) > FILE_LIMIT:
        raise FileFault("file too long: " + name)
    return data


def command(words, folder, source, cap=None):
    """(output, line, status, turns) of the program with these words.

    With a `cap` a run that takes more turns gives None.
    """
    options = run_words(words)
    if options is None:
        return b"", "usage", 2, 0
    try:
        image = read_image(read_file(folder, options["image"]))
        schedule = b""
        if options["schedule"] is not None:
            schedule = read_file(folder, options["schedule"])
    except FileFault as fault:
        return b"", str(fault), 4, 0
    except Refused as refusal:
        return b"", refusal.line, 3, 0
    budget = BUDGET if options["steps"] is None else options["steps"]
    machine = Machine(image, source, options["unplug"])
    status, line = machine.run(schedule, budget if cap is None else min(budget, cap))
    if cap is not None and cap < budget and status == 8:
        return None
    return bytes(machine.out), line, status, machine.turns


# ------------------------------------------------------ images, written by hand

def write_name(name):
    return bytes([len(name) & 255]) + name


def print_image(image):
    """The bytes of an image, whether or not it meets the rules."""
    out = b"FXIM" + struct.pack("<HBBB", image.version & 0xFFFF, image.mechanism & 255,
                                len(image.comps) & 255, image.stack_pages & 255)
    if image.version != 1:
        out += bytes([image.threads & 255])
    out += bytes([image.scheduler & 255, image.home & 255])
    for comp in image.comps:
        out += write_name(comp.name)
        out += struct.pack("<III", comp.start & M32, comp.len & M32, comp.pkru & M32)
    out += struct.pack("<H", len(image.sections) & 0xFFFF)
    for s in image.sections:
        out += struct.pack("<H", s.readers & 0xFFFF)
        if image.version != 1:
            out += struct.pack("<H", s.writers & 0xFFFF)
        out += struct.pack("<BII", s.key & 255, s.page & M32, s.pages & M32)
    out += struct.pack("<I", len(image.code)) + image.code
    out += struct.pack("<I", len(image.literals)) + image.literals
    out += struct.pack("<I", len(image.objects))
    for o in image.objects:
        out += write_name(o.name) + struct.pack(
            "<HQII", o.section & 0xFFFF, o.address & M64, o.size & M32, len(o.initial)) + o.initial
    out += struct.pack("<H", len(image.entries) & 0xFFFF)
    for e in image.entries:
        out += write_name(e.name) + struct.pack(
            "<BHH", e.compartment & 255, e.number & 0xFFFF, e.callers & 0xFFFF)
    out += struct.pack("<H", len(image.stubs) & 0xFFFF)
    for s in image.stubs:
        out += struct.pack("<BBHIII", s.origin & 255, s.target & 255, s.entry & 0xFFFF,
                           s.offset & M32, s.first & M32, s.second & M32)
    out += struct.pack("<I", image.abort & M32) + bytes(x & 255 for x in image.owners)
    out += bytes([len(image.starts) & 255])
    for s in image.starts:
        out += struct.pack("<IQ", s.rip & M32, s.rsp & M64)
    return out


class Code:
    """Bytes of code at an offset, with jumps to labels and to places."""

    def __init__(self, start):
        self.start = start
        self.bytes = bytearray()
        self.labels = {}
        self.jumps = []

    def here(self):
        return self.start + len(self.bytes)

    def put(self, *inst):
        self.bytes += encode(inst)

    def label(self, name):
        self.labels[name] = self.here()

    def go(self, op, target, cond=None):
        """A jump or call to a label (a string) or to an offset of the code."""
        self.put(*((op, cond, 0) if op == "jcc" else (op, 0)))
        self.jumps.append((len(self.bytes), target))

    def done(self):
        for end, target in self.jumps:
            place = self.labels[target] if isinstance(target, str) else target
            self.bytes[end - 4:end] = struct.pack("<i", place - self.start - end)
        self.jumps = []
        return bytes(self.bytes)


WORDS = (0, 1, 2, 3, 4, 7, 8, 15, 31, 32, 33, 63, 64, 0x7F, 0x80, 0xFF, 0x7FFF, 0x8000, 0xFFFF,
         0x7FFFFFFF, 0x80000000, 0xFFFFFFFF, 0x100000000, M64 >> 1, 1 << 63, M64, M64 - 1)
SCRATCH = (0, 1, 2, 3, 5, 6, 7, 8, 9, 10, 11)
SUM, CONSOLE, LOOP, ODD = 15, 14, 13, 12


class Maker:
    """Makes one valid image with random code from a source of chance."""

    def __init__(self, chance):
        self.r = chance

    def word(self):
        if self.r.random() < 0.6:
            return self.r.choice(WORDS)
        return self.r.getrandbits(self.r.choice((8, 16, 32, 64)))

    def imm(self):
        return signed(self.word(), 32)

    def image(self):
        r = self.r
        im = self.im = Record()
        im.mechanism = r.choice((CALL, LIGHT, FULL, FULL, EPT, EPT))
        im.version = r.choice((1, 2, 2))
        im.threads = 8 if im.version == 1 else r.choice((8, 16))
        im.stack_pages = r.choice((1, 1, 1, 2, 3))
        n = r.choice((1, 2, 2, 3, 3))
        if r.random() < 0.04:
            n = r.randint(1, 16 if im.mechanism == EPT else 8)
        im.n = n
        im.scheduler, im.home = r.randrange(n), r.randrange(n)
        im.owners = [r.choice((im.home, r.randrange(n))) for _ in range(16)]
        self.sections()
        im.literals = bytes(r.getrandbits(8) for _ in range(r.choice((0, 5, 40, 4096, 4100))))
        self.objects()
        self.layout()
        for c, comp in enumerate(im.comps):
            comp.pkru = pkru_of(im.mechanism, im.sections, im.scheduler, c)
        im.code = self.code()
        im.starts = self.starts()
        return im

    def sections(self):
        r, im = self.r, self.im
        everyone = (1 << im.n) - 1
        pairs = [(1 << c, 1 << c) for c in range(im.n)]
        if im.n > 1:
            pairs.append((everyone, everyone))
        for _ in range(r.choice((0, 1, 2, 4))):
            readers = r.randint(1, everyone)
            writers = readers if im.version == 1 else readers & r.randint(1, everyone)
            if writers and (readers, writers) not in pairs and len(pairs) < 14:
                pairs.append((readers, writers))
        page = SECTIONS // PAGE
        im.sections = []
        for i, (readers, writers) in enumerate(pairs):
            pages = r.choice((1, 1, 2, 3))
            im.sections.append(Record(readers=readers, writers=writers, page=page, pages=pages,
                                      key=key_rule(im.mechanism, i)))
            page += pages + 1

    def objects(self):
        r, im = self.r, self.im
        im.objects = []
        for number, section in enumerate(im.sections):
            at = section.page * PAGE
            end = at + section.pages * PAGE
            if number < im.n:
                im.objects.append(Record(name=b".rt.c%d" % number, section=number, address=at,
                                         size=r.choice((64, PAGE)), initial=b""))
                at += im.objects[-1].size + 16
            for i in range(r.choice((0, 1, 2, 5))):
                size = r.choice((0, 1, 4, 8, 16, 100, PAGE))
                if r.random() < 0.2:
                    size = max(0, end - at)
                if at + size > end:
                    break
                initial = bytes(r.getrandbits(8) for _ in range(min(size, r.choice((0, 3, 20)))))
                initial = initial.rstrip(b"\0")
                im.objects.append(Record(name=b"g%d_%d" % (number, i), section=number, address=at,
                                         size=size, initial=initial))
                at += size + r.choice((16, 17, 28, 32))

    def layout(self):
        """Ranges, entries and the offsets that the runtime's code needs."""
        r, im = self.r, self.im
        im.comps, im.entries = [], []
        at = 0
        for c in range(im.n):
            pages = r.choice((1, 1, 1, 2))
            if c != im.home and r.random() < 0.03:
                pages = 0
            name = r.choice((b"c%d" % c, b"_%d" % c, b"int%d" % c, b"n" * 62 + b"%d" % (c % 10)))
            if name in [comp.name for comp in im.comps]:
                name = b"x%d" % c
            im.comps.append(Record(name=name, start=at, len=pages * PAGE, pkru=0))
            at += pages * PAGE
            for number in range(r.choice((1, 1, 2, 3)) if pages else 0):
                im.entries.append(Record(name=b"e%d" % r.randrange(4), compartment=c,
                                         number=number, callers=r.randint(0, (1 << im.n) - 1)))
        im.runtime = at

    def entry_place(self, c, number=0):
        return self.im.comps[c].start + 16 * number

    def stack_low(self, thread, c):
        im = self.im
        number = thread * im.n + c if im.mechanism in (FULL, EPT) else thread
        return STACKS + number * (2 * im.stack_pages * PAGE + 0x2000) + 0x1000

    def starts(self):
        r, im = self.r, self.im
        size = im.stack_pages * PAGE
        starts = []
        for v in range(im.n if im.mechanism == EPT else 1):
            c = v if im.mechanism == EPT else im.home
            rip, rsp = CODE + self.begin, self.stack_low(0, c) + size - 32
            if im.mechanism == EPT:
                rip = CODE + self.begins[v]
            if r.random() < 0.02:
                rip = CODE + r.randrange(len(im.code))
            if r.random() < 0.03:
                top = 2 * size if im.mechanism in (FULL, EPT) else size
                rsp = self.stack_low(r.randrange(im.threads), c) + 16 * r.randrange(top // 16)
            starts.append(Record(rip=rip, rsp=rsp))
        return starts

    # -- the runtime's code

    def code(self):
        r, im = self.r, self.im
        rt = Code(im.runtime)
        im.stubs = []
        self.begins = []
        for v in range(im.n if im.mechanism == EPT else 1):
            c = v if im.mechanism == EPT else im.home
            self.begins.append(rt.here())
            self.set_up(rt)
            if im.comps[c].len:
                rt.label("again%d" % v)
                rt.go("call", self.entry_place(c))
                if v != im.home and im.mechanism == EPT or r.random() < 0.35:
                    rt.go("jmp", "again%d" % v)
                rt.put("mov", 64, 7, SUM)
                rt.put("alu", "xor", 32, 0, 0)
                rt.put("hlt")
            else:
                rt.label("idle%d" % v)
                rt.go("jmp", "idle%d" % v)
        self.begin = self.begins[0]
        im.abort = rt.here()
        rt.put("movimm", 0, r.choice((4, 4, 4, 5, 2)))
        rt.put("hlt")
        if im.mechanism in (LIGHT, FULL) and im.n > 1:
            for _ in range(r.choice((1, 2, 4, 6))):
                self.stub(rt)
        runtime = rt.done()
        runtime += b"\xf4" * (-len(runtime) % PAGE)
        out = b""
        for c, comp in enumerate(im.comps):
            out += self.range(c, comp)
        return out + runtime

    def set_up(self, code):
        code.put("movimm64", CONSOLE, DEVICES)
        code.put("movimm64", ODD, self.r.getrandbits(64) | 1)
        code.put("movimm64", SUM, self.r.getrandbits(64))

    def stub(self, rt):
        """A key stub; the caller's stack pointer is kept in its private section."""
        r, im = self.r, self.im
        entry = r.choice([e for e in im.entries])
        origins = [c for c in range(im.n) if c != entry.compartment]
        origin = im.home if im.home in origins and r.random() < 0.6 else r.choice(origins)
        target = entry.compartment
        keep = im.sections[origin].page * PAGE + 8 * target
        offset = rt.here()
        switch = im.mechanism == FULL or r.random() < 0.3
        if switch:
            rt.put("movimm64", 5, keep)
            rt.put("store", 64, 5, 0, 4)

        def change(c):
            value = im.comps[c].pkru
            odd = r.random()
            if odd < 0.02:
                value = r.getrandbits(32)
            elif odd < 0.05:
                value ^= 1 << r.randrange(32)
            rt.put("movimm", 0, signed(value, 32))
            if r.random() < 0.98:
                rt.put("alu", "xor", 32, 1, 1)
            if r.random() < 0.98:
                rt.put("alu", "xor", 32, 2, 2)
            place = rt.here()
            rt.put("wrpkru")
            if r.random() < 0.7:
                rt.put("aluimm", "cmp", 32, 0, signed(value, 32))
                rt.go("jcc", im.abort, 5)
            return place

        first = change(target)
        if switch:
            low = self.stack_low(r.choice((0, 1)), target)
            rt.put("movimm64", 4, low + im.stack_pages * PAGE - 32 - 16 * r.randrange(4))
        rt.go("call", self.entry_place(target, entry.number))
        second = change(origin)
        if switch:
            rt.put("movimm64", 5, keep)
            rt.put("load", 64, 4, 5, 0)
        rt.put("ret")
        if im.comps[target].len:
            im.stubs.append(Record(origin=origin, target=target, entry=entry.number,
                                   offset=offset, first=first, second=second))

    # -- a compartment's code

    def range(self, c, comp):
        r = self.r
        if not comp.len:
            return b""
        actions = r.choice((3, 10, 25, 45))
        numbers = [e.number for e in self.im.entries if e.compartment == c]
        while True:
            code = Code(comp.start)
            self.c, self.serial, self.depth = c, 0, 0
            for number in numbers:
                code.go("jmp", "entry%d" % number)
                code.bytes += b"\xf4" * (-len(code.bytes) % 16)
            for number in numbers:
                code.label("entry%d" % number)
                self.helpers = ["help%d" % i for i in range(2)]
                for _ in range(actions):
                    self.action(code)
                self.finish(code)
            self.helpers = []
            for i in range(2):
                code.label("help%d" % i)
                for _ in range(2):
                    self.action(code)
                code.put("ret")
            out = code.done()
            if len(out) <= comp.len:
                rest = comp.len - len(out)
                pad = b"\xf4" * rest
                if r.random() < 0.2:
                    pad = bytes(r.choice((0x0F, 0x48, 0x01, 0x90, 0x66, r.getrandbits(8)))
                                for _ in range(rest))
                    pad = pad.replace(KEY_WRITE, b"\x90\x90\x90")
                return out + pad
            actions //= 2

    def new_label(self):
        self.serial += 1
        return "l%d" % self.serial

    def any(self):
        return self.r.choice(SCRATCH)

    def digest(self, code, reg):
        code.put("alu", self.r.choice(("add", "xor")), 64, SUM, reg)
        code.put("imul", 64, SUM, ODD)

    def show(self, code):
        """One byte of the digest to the console, where it may be written."""
        if self.reaches(0):
            code.put("imul", 64, SUM, ODD)
            code.put("store", 64, CONSOLE, 0, SUM)

    def reaches(self, device):
        return self.im.mechanism == CALL or self.im.owners[device] == self.c

    def finish(self, code):
        """The end of an entry: mostly a return, else something that stops."""
        r = self.r
        for _ in range(3):
            self.show(code)
        kind = r.random()
        if kind < 0.5:
            code.put("ret")
            return
        if kind < 0.75 and self.c == self.im.home:
            code.put("mov", 64, 7, SUM)
            if r.random() < 0.5:
                code.put("movimm64", 7, r.choice((0, 1, 7, self.word())))
            code.put("movimm64", 6, r.choice((0, 1, 2, 9, self.word())))
            code.put("movimm64", 0, r.choice((0, 0, 1, 1, 2, 3, 4, 5, self.word())))
            code.put("hlt")
        elif kind < 0.95:
            for _ in range(3):
                self.risk(code)
        else:
            code.bytes += bytes(r.getrandbits(8) for _ in range(6)).replace(KEY_WRITE, b"")
        code.put("ret")

    def action(self, code):
        r = self.r
        kind = r.random()
        if kind < 0.34:
            self.sums(code)
        elif kind < 0.66:
            self.access(code, self.good())
        elif kind < 0.72:
            self.pushes(code)
        elif kind < 0.78 and self.depth < 3:
            end = self.new_label()
            if r.random() < 0.7:
                self.compare(code)
            code.go("jcc", end, r.choice(CONDS))
            self.depth += 1
            for _ in range(r.choice((1, 2))):
                self.action(code)
            self.depth -= 1
            code.label(end)
        elif kind < 0.81 and self.depth == 0 and self.helpers:
            back = self.new_label()
            code.put("movimm", LOOP, r.choice((1, 2, 5)))
            code.label(back)
            self.depth += 1
            self.action(code)
            self.depth -= 1
            code.put("aluimm", "sub", r.choice((32, 64)), LOOP, 1)
            code.go("jcc", back, 5)
        elif kind < 0.88:
            self.calls(code)
        elif kind < 0.925:
            self.device(code)
        elif kind < 0.95:
            self.divide(code)
        elif kind < 0.96:
            code.put("alu", "xor", 32, 1, 1)
            code.put("rdpkru")
            self.digest(code, 0)
            self.digest(code, 2)
        elif kind < 0.965:
            self.risk(code)
        else:
            self.show(code)

    def compare(self, code):
        r = self.r
        w = r.choice((32, 64))
        if r.random() < 0.5:
            code.put("alu", r.choice(("cmp", "test")), w, self.any(), self.any())
        else:
            code.put("aluimm", "cmp", w, self.any(), self.imm())

    def sums(self, code):
        r = self.r
        for _ in range(r.choice((1, 2, 3))):
            w = r.choice((32, 64))
            kind = r.randrange(14)
            dst = self.any()
            if kind == 0:
                code.put("movimm64", dst, self.word())
            elif kind == 1:
                code.put("movimm", dst, self.imm())
            elif kind == 2:
                code.put("mov", w, dst, r.randrange(16))
            elif kind in (3, 4):
                code.put("alu", r.choice(sorted(ALU)), w, dst, r.randrange(16))
            elif kind in (5, 6):
                code.put("aluimm", r.choice(sorted(ALU_IMM)), w, dst, self.imm())
            elif kind == 7:
                code.put("imul", w, dst, self.any())
            elif kind in (8, 9):
                if r.random() < 0.7:
                    code.put("movimm", 1, r.choice((0, 1, 1, 2, 31, 32, 33, 63, 64, self.imm())))
                code.put("shift", r.choice(sorted(SHIFT)), w, dst)
            elif kind == 10:
                code.put("unary", r.choice(("not", "neg")), w, dst)
            elif kind == 11:
                code.put("zero", r.choice((8, 16)), dst, r.randrange(16))
            elif kind == 12:
                code.put("sign", r.choice((8, 16, 32)), dst, r.randrange(16))
            else:
                code.put(*r.choice((("cqo",), ("nop",), ("lea", dst, r.randrange(16), self.imm()))))
        if r.random() < 0.03:
            save = self.any()
            code.put("mov", 64, save, 4)
            code.put(*r.choice((("setcc", r.choice(CONDS), 4), ("alu", "add", 32, 4, 4),
                                ("aluimm", "and", 64, 4, self.imm()), ("shift", "shl", 64, 4))))
            code.put("alu", "xor", 64, SUM, 4)
            code.put("mov", 64, 4, save)
        for _ in range(r.choice((1, 2))):
            dst = self.any()
            code.put("setcc", r.choice(CONDS), dst)
            if r.random() < 0.5:
                code.put("setcc", r.choice(CONDS), self.any())
            code.put("mov", 64, LOOP if self.depth == 0 else dst, dst)
            self.digest(code, dst)

    def pushes(self, code):
        r = self.r
        count = r.choice((1, 2, 3))
        for _ in range(count):
            code.put("push", r.choice(SCRATCH + (4, 12, 14)))
        if r.random() < 0.5 and self.depth < 3:
            self.depth += 1
            self.access(code, self.good())
            self.depth -= 1
        for _ in range(count):
            reg = self.any()
            code.put("pop", reg)
            self.digest(code, reg)
        if r.random() < 0.1:
            code.put("push", 4)
            code.put("pop", 4)
            code.put("alu", "xor", 64, SUM, 4)

    def calls(self, code):
        r, im = self.r, self.im
        stubs = [s for s in im.stubs if s.origin == self.c]
        if stubs and r.random() < 0.7:
            stub = r.choice(stubs)
            if stub.target > self.c or r.random() < 0.3:
                code.go("call", stub.offset)
                return
        others = [e for e in im.entries if e.compartment > self.c]
        if others and im.mechanism == CALL:
            entry = r.choice(others)
            code.go("call", self.entry_place(entry.compartment, entry.number))
        elif self.helpers and self.depth == 0:
            code.go("call", r.choice(self.helpers))

    def device(self, code):
        r = self.r
        device = r.choice((0, 1, 1, 1, 2, 2, r.randrange(16)))
        if not self.reaches(device):
            return
        base, value = self.any(), self.any()
        reg = r.choice((0, 0, 1, 1, 2, 511, r.randrange(512)))
        place = DEVICES + device * PAGE + 8 * reg
        if device == 1 and reg == 0 and r.random() < 0.7:
            code.put("movimm64", value, r.choice((0, 1, 2, 65535, 65536, self.word())))
        if device == 2 and reg == 0 and r.random() < 0.2:
            code.put("movimm64", value, self.word())
        if base == value:
            base = (set(SCRATCH) - {value}).pop()
        code.put("movimm64", base, place)
        if r.random() < 0.5:
            code.put("store", 64, base, 0, value)
        else:
            code.put("load", 64, value, base, 0)
            self.digest(code, value)

    def divide(self, code):
        r = self.r
        w = r.choice((32, 64))
        kind = r.choice(("div", "idiv"))
        by = r.choice([x for x in SCRATCH if x not in (0, 2)])
        code.put("movimm64", by, self.word() | r.choice((1, 1, 2, 256, 0 if r.random() < 0.05 else 1)))
        if r.random() < 0.5:
            code.put("movimm64", 0, self.word())
        if r.random() < 0.96:
            if kind == "idiv" and r.random() < 0.7 and w == 64:
                code.put("cqo")
            else:
                code.put("movimm", 2, 0)
                if kind == "idiv":
                    code.put("aluimm", "and", w, 0, 0x7FFFFFFF)
        code.put("unary", kind, w, by)
        self.digest(code, 0)
        self.digest(code, 2)
        code.put("setcc", r.choice(CONDS), 3)
        self.digest(code, 3)

    # -- places

    def regions(self):
        """(start, end, write) of the places that the compartment may use."""
        im, c = self.im, self.c
        size = im.stack_pages * PAGE
        out = []
        for s in im.sections:
            if s.readers >> c & 1 or im.mechanism == CALL:
                write = bool(s.writers >> c & 1) or im.mechanism == CALL
                first = 128 if im.sections.index(s) < im.n else 0
                out += 2 * [(s.page * PAGE + first, (s.page + s.pages) * PAGE, write)]
        for thread in (0, 1, im.threads - 1):
            for d in range(im.n):
                low = self.stack_low(thread, d)
                if im.mechanism in (FULL, EPT):
                    if c == d:
                        out.append((low, low + 2 * size, True))
                    else:
                        out.append((low + size, low + 2 * size, True))
                elif d == 0:
                    out.append((low, low + size, True))
        if im.literals:
            out.append((LITERALS, LITERALS + -(-len(im.literals) // PAGE) * PAGE, False))
        comp = im.comps[c]
        out.append((CODE + comp.start, CODE + comp.start + comp.len, False))
        out.append((CODE + im.runtime, CODE + im.runtime + PAGE, False))
        out.append((THREAD, THREAD + PAGE, im.mechanism == CALL or c == im.scheduler))
        if im.mechanism == EPT:
            for d in range(im.n):
                if d != c:
                    for page in (16 * c + d, 16 * d + c):
                        out.append((MAILBOXES + page * PAGE, MAILBOXES + page * PAGE + 80, True))
        return out

    def good(self):
        """(address, width, write) of an access that is permitted."""
        r, im = self.r, self.im
        start, end, write = r.choice(self.regions())
        w = r.choice((8, 16, 32, 64))
        size = w // 8
        kind = r.random()
        if kind < 0.2:
            at = start
        elif kind < 0.45:
            at = end - size
        elif kind < 0.6:
            at = start + r.randrange(max(1, (end - start) // PAGE)) * PAGE + r.choice((0, PAGE - size))
            if end - start > PAGE:
                at = min(start + PAGE - r.randrange(8), end - size)
        else:
            at = r.randrange(start, end - size + 1)
        at = max(start, min(at, end - size))
        write = write and r.random() < 0.5
        low = self.stack_low(0, self.c)
        top = low + im.stack_pages * PAGE
        if write and low <= at < top and at > top - 700:
            at -= 1024
        return at, w, write

    def access(self, code, place):
        r = self.r
        at, w, write = place
        base = r.choice(SCRATCH + (LOOP,)) if self.depth == 0 else self.any()
        if base == 4:
            base = 3
        disp = r.choice((0, 0, 8, -8, 127, -128, signed(r.getrandbits(32), 32)))
        code.put("movimm64", base, (at - disp) & M64)
        value = r.choice(SCRATCH + (SUM,))
        if write:
            code.put("store", w, base, disp, value)
            return
        if value == SUM:
            value = 0
        if w in (32, 64) and r.random() < 0.6 or w == 64:
            code.put("load", w, value, base, disp)
        elif w == 32 or r.random() < 0.5:
            code.put("loadsign", w, value, base, disp)
        else:
            code.put("loadzero", w, value, base, disp)
        self.digest(code, value)

    def edge(self):
        """(address, width, write) of an access at the edge of some place."""
        r, im = self.r, self.im
        size = im.stack_pages * PAGE
        s = r.choice(im.sections)
        low = self.stack_low(r.randrange(im.threads), r.randrange(im.n))
        kind = r.randrange(9)
        if kind < 2 and im.objects:
            item = r.choice(im.objects)
            edges = [item.address, item.address + item.size // 2, item.address + item.size]
        elif kind < 3:
            edges = [s.page * PAGE, (s.page + s.pages) * PAGE]
        elif kind < 5:
            edges = [low, low + size, low + size, low + 2 * size, low + 8 * r.randrange(size // 4)]
        elif kind < 6:
            edges = [THREAD, THREAD, THREAD + PAGE]
            edges += [MAILBOXES + PAGE * (16 * r.randrange(im.n) + r.randrange(im.n)) for _ in edges]
        elif kind < 7:
            edges = [DEVICES + PAGE * r.randrange(17) + 8 * r.choice((0, 0, 1, 2, 511))]
        elif kind < 8:
            edges = [CODE, CODE + im.runtime, CODE + im.runtime + PAGE, LITERALS,
                     LITERALS + -(-len(im.literals) // PAGE) * PAGE]
            edges += [CODE + comp.start for comp in im.comps]
        else:
            edges = [0, M64 - 3, 1 << 47, SECTIONS - 4, MAILBOXES + PAGE * r.randrange(256),
                     self.stack_low(im.threads, 0), r.getrandbits(64)]
        at = r.choice(edges) + r.choice((0, 0, 0, 8, -8, -1, -2, -3, -4, -5, -7, 1, 3, 4))
        return at & M64, r.choice((8, 16, 32, 64, 64)), r.random() < 0.5

    def risk(self, code):
        """Something that may well stop the run."""
        r, im = self.r, self.im
        kind = r.randrange(12)
        if kind < 7:
            self.access(code, self.edge())
        elif kind == 7:
            code.put("movimm64", 1, r.choice((0, 0, 1, 1 << 32)))
            code.put("movimm64", 2, r.choice((0, 0, 0, 1, 1 << 32)))
            code.put("movimm64", 0, r.getrandbits(32) & r.getrandbits(32))
            if r.random() < 0.5:
                code.put("movimm64", 0, im.comps[r.randrange(im.n)].pkru)
            if im.stubs and r.random() < 0.8:
                stub = r.choice(im.stubs)
                code.go(r.choice(("jmp", "call")), r.choice((stub.first, stub.second, stub.offset)))
            else:
                code.put("rdpkru")
        elif kind == 8:
            target = r.choice([SECTIONS, STACKS, THREAD, LITERALS, DEVICES, MAILBOXES + PAGE,
                               CODE - 1, CODE + im.runtime + r.randrange(64),
                               CODE + r.randrange(im.runtime + PAGE)]) - CODE
            code.go(r.choice(("jmp", "call")), target)
        elif kind == 9:
            code.put("movimm64", 3, r.choice((0, M64, 1 << 47, self.word(), SECTIONS,
                                              CODE + r.randrange(im.runtime + PAGE))))
            code.put("push", 3)
            code.put("ret")
        elif kind == 10:
            code.put("mov", 64, 5, 4)
            region = r.choice(self.regions())
            top = r.choice((region[0], region[1], region[0] + 4, DEVICES + 8, DEVICES + 0x1008,
                            DEVICES + 0x2008, DEVICES + 12, self.stack_low(0, self.c)))
            code.put("movimm64", 4, top)
            code.put(*r.choice((("push", 4), ("push", 3), ("pop", 4), ("pop", 3), ("ret",),
                                ("call", 0))))
            code.put("mov", 64, 4, 5)
        else:
            code.bytes += r.choice((b"\x0f\x0b", b"\x66\x90", b"\x40\x90", b"\x48\x8b\x45\xf0",
                                    b"\x06", b"\x8b\x04\x24", b"\xf7\xc0\0\0\0\0", b"\x45\x50",
                                    b"\x48\x50", b"\x66\x89\xc0", b"\x40\x88\x80\0\0\0\0",
                                    b"\x88\xa0\0\0\0\0", b"\x0f\x9a\xc0", b"\x48\x0f\xb6\xc0"))


class Prober(Maker):
    """Makes images whose code is short: a PKRU value, then accesses at edges."""

    def stub(self, rt):
        im = self.im
        places = []
        offset = rt.here()
        rt.put("nop")
        for _ in range(2):
            places.append(rt.here())
            rt.put("wrpkru")
            rt.put("ret")
        if not im.stubs:
            target = im.entries[0].compartment
            im.stubs.append(Record(origin=(target + 1) % im.n, target=target, entry=0,
                                   offset=offset, first=places[0], second=places[1]))
        else:
            im.stubs.append(Record(**{**im.stubs[0].__dict__, "offset": offset,
                                      "first": places[0], "second": places[1]}))

    def range(self, c, comp):
        r, im = self.r, self.im
        if not comp.len:
            return b""
        self.c, self.serial, self.depth, self.helpers = c, 0, 9, []
        code = Code(comp.start)
        numbers = [e.number for e in im.entries if e.compartment == c]
        for number in numbers:
            code.go("jmp", "entry%d" % number)
            code.bytes += b"\xf4" * (-len(code.bytes) % 16)
        for number in numbers:
            code.label("entry%d" % number)
            if im.stubs and r.random() < 0.6:
                value = r.choice((im.comps[c].pkru, r.choice(im.comps).pkru, r.getrandbits(32), 0,
                                  0x55555554, 0xAAAAAAAA))
                everyone = im.n if im.n > 1 else 0
                for _ in range(r.choice((0, 0, 1, 2))):
                    value ^= 1 << r.randrange(32)
                if r.random() < 0.3:
                    value |= r.choice((1, 2, 3)) << 2 * im.sections[everyone].key
                elif r.random() < 0.8:
                    mine = im.sections[c if im.mechanism == FULL else everyone].key
                    value &= ~(3 << 2 * mine)
                code.put("alu", "xor", 32, 1, 1)
                code.put("alu", "xor", 32, 2, 2)
                code.put("movimm64", 0, r.choice((value, value | r.getrandbits(32) << 32)))
                stub = r.choice(im.stubs)
                code.go("call", r.choice((stub.first, stub.second)))
            for _ in range(r.choice((1, 2, 4))):
                self.access(code, self.edge() if r.random() < 0.8 else self.good())
            self.show(code)
            code.put("ret")
        out = code.done()
        return out + b"\xf4" * (comp.len - len(out))


class Plugger(Prober):
    """Makes images whose code is operations on devices."""

    def edge(self):
        r = self.r
        device = r.choice((0, 1, 1, 1, 1, 2, 2, 3, 15))
        reg = r.choice((0, 0, 1, 1, 1, 2, 511))
        at = DEVICES + PAGE * device + 8 * reg + (r.choice((1, 4, 7)) if r.random() < 0.01 else 0)
        return at, 64 if r.random() < 0.99 else 32, r.random() < 0.5

    def good(self):
        return self.edge()

    def access(self, code, place):
        r = self.r
        at, w, write = place
        if not self.reaches((at - DEVICES) // PAGE) and r.random() < 0.95:
            return
        for _ in range(6):
            code.put("movimm64", 3, at)
            if write:
                value = r.choice((0, 1, 65534, 65535, 65536, 1 << 32, M64, self.word()))
                code.put("movimm64", 7, value)
                code.put("store", w, 3, 0, 7)
            else:
                code.put("load", w, 7, 3, 0)
                self.digest(code, 7)
                self.show(code)
            if at & 7 == 0 and w == 64:
                at = at & ~(PAGE - 1) | r.choice((0, 8, 8))
                write = r.random() < 0.5


# ------------------------------------------------------------- broken images

def settle(image):
    """Give the sections the keys, pages and PKRU values that the rules ask for."""
    page = SECTIONS // PAGE
    for i, s in enumerate(image.sections):
        s.key, s.page = key_rule(image.mechanism, i), page
        page += s.pages + 1
    for c, comp in enumerate(image.comps):
        comp.pkru = pkru_of(image.mechanism, image.sections, image.scheduler, c)
    image.objects = []


def edge_of_rule(chance, image):
    """Bring one part of a valid image to the edge of its rule."""
    r, n = chance, len(image.comps)
    code = len(image.code)
    size = image.stack_pages * PAGE
    while True:
        kind = r.randrange(24)
        if kind < 4 and image.objects:
            at = r.randrange(len(image.objects))
            item = image.objects[at]
            section = image.sections[item.section]
            end = (section.page + section.pages) * PAGE
            if kind == 0 and at:
                before = image.objects[at - 1]
                item.address = before.address + before.size + r.choice((14, 15, 16, 17))
                item.section = before.section
                if r.random() < 0.5:
                    del image.objects[at + 1:]
                    item.size, item.initial = 1, b""
            elif kind == 1:
                del image.objects[at + 1:]
                item.size = r.choice((0, 0, 1, item.size))
                item.initial = b""
                item.address = end - item.size + r.choice((-1, 0, 0, 1))
            elif kind == 2:
                item.address = section.page * PAGE + r.choice((-1, 0, -16))
            else:
                other = r.choice(image.objects)
                item.name = r.choice((other.name, b".rt." + other.name, b".rt.c0", b".rt.1c",
                                      b".rt." + b"q" * 63, b".rt." + b"q" * 64, b"q" * 64))
        elif kind == 4 and image.objects:
            item = r.choice(image.objects)
            length = max(0, item.size + r.choice((-1, 0, 1)))
            item.initial = (b"\1" * length)[:-1] + r.choice((b"", b"\0", b"\1"))
        elif kind == 5:
            image.abort = r.choice((image.runtime, image.runtime - 1, code - 1, code, 0)) & M32
        elif kind == 6:
            image.owners[r.randrange(16)] = r.choice((n - 1, n))
        elif kind < 9:
            start = r.choice(image.starts)
            start.rip = CODE + r.choice((-1, 0, code - 1, code))
        elif kind < 12:
            start = r.choice(image.starts)
            stacks = image.threads * (n if image.mechanism in (FULL, EPT) else 1)
            number = r.choice((0, stacks - 1, stacks))
            low = STACKS + number * (2 * size + 0x2000) + 0x1000
            start.rsp = low + r.choice((0, size, size, 2 * size)) + r.choice((-16, 0, 0, -8, 1, 16))
        elif kind < 16:
            pairs = image.sections
            how = r.randrange(9)
            extra = r.choice(pairs).copy()
            if how == 0:
                pairs.append(extra)
            elif how == 1:
                pairs[r.randrange(len(pairs))].writers = 0
            elif how == 2:
                pairs.append(Record(readers=1, writers=r.choice((2, 3)), key=0, page=0, pages=1))
            elif how == 3:
                everyone = 1 << n
                pairs.append(Record(readers=everyone, writers=everyone, key=0, page=0, pages=1))
            elif how == 4 and n > 1:
                del pairs[n]
            elif how == 5:
                x, y = r.randrange(len(pairs)), r.randrange(len(pairs))
                pairs[x], pairs[y] = pairs[y], pairs[x]
            elif how == 6 and n > 2 and image.version == 2:
                have = {(s.readers, s.writers) for s in pairs}
                for readers in range(1, 8):
                    for writers in range(1, 8):
                        fresh = writers & ~readers == 0 and (readers, writers) not in have
                        if fresh and len(pairs) < r.choice((14, 15)):
                            pairs.append(Record(readers=readers, writers=writers, key=0, page=0,
                                                pages=1))
            elif how == 7:
                r.choice(pairs).pages = r.choice((0, 1, 16384, 16384 - sum(s.pages for s in pairs)))
            else:
                extra.readers, extra.writers = 1, 1
                pairs.insert(0, extra)
            settle(image)
        elif kind == 16:
            s = r.choice(image.sections)
            s.key = (s.key + r.choice((1, -1, 0))) & 255
            s.page += r.choice((1, -1, 0))
        elif kind == 17:
            r.choice(image.comps).pkru ^= 1 << r.randrange(32)
        elif kind == 18:
            comp = r.choice(image.comps)
            comp.name = r.choice((r.choice(image.comps).name, b"z" * 63, b"z" * 64, b".rt.a"))
        elif kind == 19 and image.entries:
            at = r.randrange(len(image.entries))
            entry = image.entries[at]
            how = r.randrange(5)
            if how == 0:
                entry.callers = r.choice(((1 << n) - 1, 1 << n))
            elif how == 1:
                entry.number += r.choice((1, -1))
            elif how == 2:
                entry.compartment = (entry.compartment + r.choice((1, -1))) & 255
            elif how == 3:
                entry.name = r.choice((b"", b"z" * 63, b"z" * 64, b".rt.a", b"_"))
            else:
                image.entries.append(entry.copy())
        elif kind < 23 and image.stubs:
            stub = r.choice(image.stubs)
            how = r.randrange(8)
            if how == 0:
                stub.offset = stub.first + r.choice((-1, 0, 1))
            elif how == 1:
                stub.second = stub.first
            elif how == 2:
                stub.first, stub.second = stub.second, stub.first
            elif how == 3:
                stub.offset = image.runtime + r.choice((-1, 0))
            elif how == 4:
                stub.target = r.choice((stub.origin, n, n - 1))
            elif how == 5:
                stub.origin = r.choice((stub.target, n, n - 1))
            elif how == 6:
                stub.entry += 1
            else:
                stub.first += r.choice((1, -1))
        elif kind == 23:
            image.starts = r.choice((image.starts[:-1], image.starts + image.starts[:1]))
        else:
            continue
        return



def twist(chance, image):
    """Change one part of an image, so that it is mostly refused."""
    r = chance
    numbers = []

    def part(record, name, bits):
        numbers.append((record, name, bits))

    for name, bits in (("version", 16), ("mechanism", 8), ("stack_pages", 8), ("threads", 8),
                       ("scheduler", 8), ("home", 8), ("abort", 32)):
        part(image, name, bits)
    for comp in image.comps:
        for name in ("start", "len", "pkru"):
            part(comp, name, 32)
    for s in image.sections:
        for name, bits in (("readers", 16), ("writers", 16), ("key", 8), ("page", 32), ("pages", 32)):
            part(s, name, bits)
    for o in r.sample(image.objects, min(3, len(image.objects))):
        for name, bits in (("section", 16), ("address", 64), ("size", 32)):
            part(o, name, bits)
            part(o, name, bits)
    for e in image.entries:
        for name, bits in (("compartment", 8), ("number", 16), ("callers", 16)):
            part(e, name, bits)
    for s in image.stubs:
        for name, bits in (("origin", 8), ("target", 8), ("entry", 16), ("offset", 32),
                           ("first", 32), ("second", 32)):
            part(s, name, bits)
    for s in image.starts:
        part(s, "rip", 32)
        for _ in range(5):
            part(s, "rsp", 64)
    kind = r.random()
    if kind < 0.6:
        record, name, bits = r.choice(numbers)
        old = getattr(record, name)
        other = r.choice(numbers)
        setattr(record, name, r.choice((
            old + 1, old - 1, old + 15, old + 16, old - 16, old + PAGE, old - PAGE, 0, 1,
            old ^ (1 << r.randrange(bits)), (1 << bits) - 1, r.getrandbits(bits),
            getattr(other[0], other[1]))) & ((1 << bits) - 1))
        if name == "rsp" and r.random() < 0.8:
            size = image.stack_pages * PAGE
            number = r.choice((0, 1, image.threads * image.n - 1, image.threads * image.n,
                               image.threads - 1, image.threads))
            low = STACKS + number * (2 * size + 0x2000) + 0x1000
            setattr(record, name, low + r.choice((0, size, 2 * size)) + r.choice((-16, 0, -8, 16)))
    elif kind < 0.75:
        lists = [x for x in (image.comps, image.objects, image.entries) if x]
        record = r.choice(r.choice(lists))
        record.name = r.choice((
            b"", b"a" * 63, b"a" * 64, b"a" * 67, b"a" * 68, b".rt." + b"b" * 63, b".rt." + b"b" * 64,
            b".rt.", b".rt", b".rt.9", b"9a", b"a-b", b"int", b"a\0", b"\xc3\xa4", b"a b", b"_",
            r.choice(r.choice(lists)).name, record.name + b"x"))
    elif kind < 0.85:
        lists = [image.comps, image.sections, image.objects, image.entries, image.stubs, image.starts]
        some = r.choice([x for x in lists if x])
        how = r.randrange(4)
        at = r.randrange(len(some))
        if how == 0:
            del some[at]
        elif how == 1:
            some.insert(r.randrange(len(some) + 1), some[at].copy())
        elif how == 2:
            some.reverse()
        else:
            other = r.randrange(len(some))
            some[at], some[other] = some[other], some[at]
    elif kind < 0.88:
        image.owners[r.randrange(16)] = r.choice((image.n, image.n - 1, 255))
    elif kind < 0.91:
        image.literals = bytes(r.choice((8388608, 8388609)))
    elif kind < 0.95:
        change = r.choice((1, -1, PAGE, -PAGE, 1048576 - len(image.code), 1052672 - len(image.code)))
        image.code = image.code[:change] if change < 0 else image.code + bytes(change)
    elif image.objects and kind < 0.97:
        item = r.choice(image.objects)
        item.initial = bytes(r.choice((item.size, item.size + 1, 1))) + r.choice((b"", b"\1", b"\0"))
    else:
        at = r.choice((r.randrange(len(image.code) - 2), image.runtime - 1, image.runtime - 2,
                       len(image.code) - 3, 0))
        at = max(0, at)
        image.code = image.code[:at] + KEY_WRITE + image.code[at + 3:]


def scramble(chance, data):
    """Change bytes of an image's spelling, near its ends above all."""
    r = chance
    data = bytearray(data)
    kind = r.random()
    if kind < 0.3:
        return bytes(data[:r.choice((r.randrange(200), r.randrange(len(data)), len(data) - 1))])
    if kind < 0.4:
        return bytes(data) + bytes(r.getrandbits(8) for _ in range(r.choice((1, 1, 5))))
    for _ in range(r.choice((1, 1, 2))):
        where = r.random()
        if where < 0.6:
            at = r.randrange(min(200, len(data)))
        elif where < 0.9:
            at = len(data) - 1 - r.randrange(min(400, len(data)))
        else:
            at = r.randrange(len(data))
        data[at] = r.choice((r.getrandbits(8), data[at] ^ 1 << r.randrange(8),
                             data[at] + 1 & 255, data[at] - 1 & 255, 0, 255))
    return bytes(data)


# ------------------------------------------------------- images for one matter

def flags_image(chance):
    """Many single operations, each with all the flags that it leaves."""
    r = chance
    maker = Maker(r)

    def build(code):
        maker.set_up(code)
        for _ in range(r.choice((5, 30))):
            w = r.choice((32, 64))
            for reg in (0, 1, 2, 3, 8):
                if r.random() < 0.5:
                    code.put("movimm64", reg, maker.word())
            kind = r.randrange(6)
            dst, src = r.choice((0, 1, 2, 3, 8)), r.choice((0, 1, 2, 3, 8))
            if kind == 0:
                code.put("alu", r.choice(sorted(ALU)), w, dst, src)
            elif kind == 1:
                code.put("aluimm", r.choice(sorted(ALU_IMM)), w, dst, maker.imm())
            elif kind == 2:
                code.put("imul", w, dst, src)
            elif kind == 3:
                code.put("shift", r.choice(sorted(SHIFT)), w, dst)
            elif kind == 4:
                code.put("unary", r.choice(("not", "neg")), w, dst)
            else:
                how = r.choice(("div", "idiv"))
                if r.random() < 0.9:
                    code.put("movimm64", 3, maker.word() or 1)
                    code.put("movimm", 2, r.choice((0, 0, 1, -1)))
                    if r.random() < 0.5:
                        code.put("cqo")
                    if r.random() < 0.8 and how == "div":
                        code.put("movimm", 2, 0)
                        code.put("aluimm", "or", w, 3, 1)
                code.put("unary", how, w, 3)
            for i, cond in enumerate(CONDS):
                code.put("setcc", cond, (9, 10, 11, 6, 7, 5)[i % 6])
                if i % 6 == 5 or cond == 15:
                    for reg in (9, 10, 11, 6, 7, 5):
                        maker.digest(code, reg)
            for reg in (0, 1, 2, 3, 8):
                maker.digest(code, reg)
        code.put("mov", 64, 7, SUM)
        code.put("movimm", 0, 0)
        code.put("hlt")

    image = small_image(build)
    if len(image.code) != 2 * PAGE:
        image.code = image.code[:-(len(image.code) % PAGE) or None]
        image.comps[0].len = len(image.code)
        image.abort = len(image.code)
        image.code += b"\xf4" * PAGE
    return image


def spelling_image(chance):
    """One spelling, often spoilt, between known registers and their digest."""
    r = chance
    maker = Maker(r)
    a, b = r.randrange(16), r.randrange(16)
    w, disp = r.choice((32, 64)), r.choice((0, 8, -8, 100, -128, 1000))
    imm = maker.imm()
    inst = r.choice((
        ("mov", w, a, b), ("load", w, a, b, disp), ("loadzero", r.choice((8, 16)), a, b, disp),
        ("loadsign", r.choice((8, 16, 32)), a, b, disp), ("zero", r.choice((8, 16)), a, b),
        ("sign", r.choice((8, 16, 32)), a, b), ("store", r.choice((8, 16, 32, 64)), a, disp, b),
        ("movimm", a, imm), ("movimm64", a, maker.word()), ("lea", a, b, imm),
        ("alu", r.choice(sorted(ALU)), w, a, b), ("aluimm", r.choice(sorted(ALU_IMM)), w, a, imm),
        ("imul", w, a, b), ("shift", r.choice(sorted(SHIFT)), w, a),
        ("unary", r.choice(sorted(UNARY)), w, a), ("cqo",), ("setcc", r.choice(CONDS), a),
        ("jcc", r.choice(CONDS), r.choice((0, 1, 2, -7, 4096))), ("jmp", r.choice((0, 1, -5))),
        ("call", r.choice((0, 3))), ("ret",), ("push", a), ("pop", a), ("hlt",), ("nop",),
        ("rdpkru",)))
    held = bytearray(encode(inst))
    for _ in range(r.choice((0, 1, 1, 2))):
        how = r.randrange(6)
        if how == 0:
            held[r.randrange(min(4, len(held)))] ^= 1 << r.randrange(8)
        elif how == 1:
            held[:0] = bytes([r.choice((0x66, 0x40, 0x41, 0x42, 0x44, 0x45, 0x48, 0x4C, 0xF2, 0xF3,
                                        0x67, 0x2E, 0x0F))])
        elif how == 2 and held[0] & 0xF0 == 0x40:
            held[0] = 0x40 | r.randrange(16)
        elif how == 3 and held[0] & 0xF0 == 0x40 and len(held) > 1:
            del held[0]
        elif how == 4:
            held[r.randrange(len(held))] = r.getrandbits(8)
        else:
            at = 1 if len(held) > 1 and (held[0] & 0xF0 == 0x40 or held[0] == 0x66) else 0
            if held[at] == 0x0F and at + 1 < len(held):
                at += 1
            held[at] = r.getrandbits(8)
    held = bytes(held).replace(KEY_WRITE, b"\x90")

    def build(code):
        for reg in range(16):
            if reg != 4:
                code.put("movimm64", reg, SECTIONS + 2048 + 16 * reg + r.choice((0, 0, 0, 3)))
        if r.random() < 0.5:
            code.put("movimm64", 2, r.choice((0, 1)))
        if r.random() < 0.3:
            code.put("movimm64", 1, r.choice((0, 1, 65)))
        code.put("aluimm", "cmp", 64, r.choice((1, 2, 3)), imm)
        if r.random() < 0.1:
            left = r.choice((len(held), 13, 14, 14, 15, 15, 16, r.randrange(1, 20)))
            code.go("jmp", 2 * PAGE - left)
            code.bytes += b"\x90" * (2 * PAGE - left - code.here())
            code.bytes += (held + b"\x90" * 20)[:left]
            return
        code.bytes += held
        code.put("mov", 64, 10, 7)
        for cond in (0, 2, 4, 8):
            code.put("setcc", cond, 7)
            code.put("push", 7)
        code.put("movimm", 7, 0)
        for reg in range(16):
            code.put("alu", "add", 64, 7, reg)
            code.put("aluimm", "add", 64, 7, 0x1234567)
            code.put("imul", 64, 7, 7)
            code.put("aluimm", "xor", 64, 7, 0x5A5A5A5)
        code.put("movimm64", 3, SECTIONS)
        for at in range(1900, 2400, 100):
            code.put("load", 64, 2, 3, at)
            code.put("alu", "add", 64, 7, 2)
        for _ in range(4):
            code.put("pop", 2)
            code.put("lea", 7, 7, 77)
            code.put("imul", 64, 7, 2)
        code.put("movimm", 0, 0)
        code.put("hlt")

    return small_image(build)


def large_image(chance):
    """An image at one of the limits, or one past it."""
    r = chance
    over = r.choice((0, 0, 1))
    mechanism = r.choice((CALL, LIGHT, FULL, EPT))
    comps = 1 if mechanism != EPT else r.choice((1, 16 + over))
    if r.random() < 0.3:
        comps = {CALL: 8, LIGHT: 8, FULL: 8, EPT: 16}[mechanism] + over

    def build(code):
        code.put("movimm64", 3, SECTIONS + 4096 * r.choice((0, 1, 100, 8000, 16383, 16384)))
        code.put("store", 64, 3, 0, 3)
        code.put("load", 64, 7, 3, 4)
        code.put("movimm", 0, 0)
        code.put("hlt")

    image = small_image(build, mechanism, comps)
    if mechanism == EPT:
        image.starts = comps * image.starts
    kind = r.randrange(7)
    if kind == 0:
        image.sections[-1].pages = 16384 + over - len(image.sections) + 1
    elif kind == 1:
        image.sections[0].pages += 200
        shift = 0
        for s in image.sections[1:]:
            shift = 200
            s.page += shift
        image.objects = [Record(name=b"o%d" % i, section=0, address=SECTIONS + 17 * i + (1 if i else 0),
                                size=1, initial=b"") for i in range(32016 + over)]
    elif kind == 2:
        image.code += bytes(1048576 - len(image.code) + PAGE * over)
    elif kind == 3:
        image.literals = bytes(8388608 + over)
    elif kind == 4:
        image.stack_pages = 64 + over
        size = image.stack_pages * PAGE
        image.starts = [Record(rip=CODE, rsp=STACKS + 0x1000 + r.choice((
            size - 16, size, 2 * size - 16, 2 * size)))] * len(image.starts)
    elif kind == 5:
        image.entries = [Record(name=b"e", compartment=0, number=i, callers=0)
                         for i in range(PAGE // 16 + over)]
    else:
        everyone = (1 << comps) - 1
        pairs = [(s.readers, s.writers) for s in image.sections]
        most = 14 if mechanism in (LIGHT, FULL) else 60
        for readers in range(everyone, 0, -1):
            for writers in (readers, readers & -readers):
                if (readers, writers) not in pairs and len(pairs) < most + over:
                    pairs.append((readers, writers))
        image.sections = [Record(readers=x, writers=y, key=key_rule(mechanism, i),
                                 page=SECTIONS // PAGE + 2 * i, pages=1)
                          for i, (x, y) in enumerate(pairs)]
        for c, comp in enumerate(image.comps):
            comp.pkru = pkru_of(mechanism, image.sections, 0, c)
    return image


# ------------------------------------------------------------------- cases

CAP = 5000
WRONG_WORDS = (
    ["run"], [], ["run", ""], ["run", "-x.img"], ["run", "x.img", "--steps"],
    ["run", "x.img", "--steps", "01"], ["run", "x.img", "--steps", ""],
    ["run", "x.img", "--steps", "+1"], ["run", "x.img", "--steps", "18446744073709551616"],
    ["run", "x.img", "--steps", "5", "--steps", "5"], ["run", "x.img", "--unplug", "0", "1"],
    ["run", "x.img", "--unplug", "16", "1"], ["run", "x.img", "--unplug", "1"],
    ["run", "x.img", "--unplug", "1", "1", "--unplug", "2", "0"],
    ["run", "x.img", "--schedule", ""], ["run", "x.img", "--schedule", "-s"],
    ["run", "x.img", "--schedule"], ["run", "x.img", "x.img"], ["run", "--steps", "5", "x.img"],
    ["run", "x.img", "--Steps", "5"], ["run", "x.img", "--steps", "1 "], ["Run", "x.img"],
    ["run", "no.img"], ["run", "x.img", "--schedule", "no.sched", "--steps", "1"],
    ["run", "no.img", "--steps", "01"], ["run", "x.img", "--unplug", "1", "00"])


KINDS = ("code", "code", "code", "twist", "flags", "spell", "probe", "probe", "devices",
         "edge", "edge")


def make_case(seed, only=None):
    """(kind, files, words, input) of a random case.

    With `only` a case that doesn't begin as that kind is None.
    """
    r = random.Random(seed)
    kind = r.choice(KINDS)
    if r.random() < 0.01:
        kind = "large"
    if only not in (None, kind):
        return None
    if kind == "flags":
        image = flags_image(r)
    elif kind == "spell":
        image = spelling_image(r)
    elif kind == "large":
        image = large_image(r)
    else:
        maker = {"probe": Prober, "devices": Plugger}.get(kind, Maker)
        image = maker(r).image()
    if kind == "twist":
        twist(r, image)
    if kind == "edge":
        edge_of_rule(r, image)
    data = print_image(image)
    if len(image.objects) > 2000:
        data += b"\0"  # refused last of all, since a boot with so many objects is slow
    if kind == "code" and r.random() < 0.15:
        kind = "scramble"
        data = scramble(r, data)
    files = {"x.img": data}
    words = ["run", "x.img"]
    source = bytes(r.getrandbits(8) for _ in range(r.choice((0, 0, 3, 40))))
    if r.random() < 0.02:
        return "words", files, list(r.choice(WRONG_WORDS)), source
    options = []
    if r.random() < (0.7 if image.mechanism == EPT else 0.15):
        count = r.choice((1, 50, 1000, 4000))
        top = r.choice((len(image.starts) or 1, 256))
        files["x.sched"] = bytes(min(255, r.randrange(top)) for _ in range(count))
        options.append(["--schedule", "x.sched"])
    if r.random() < (0.6 if kind == "devices" else 0.12):
        options.append(["--unplug", str(r.choice((1, 1, 2, 2, 3, 15))), str(r.choice((0, 1, 2, 3, 5)))])
    steps = None
    with tempfile.TemporaryDirectory() as folder:
        write_files(folder, files)
        found = command(words + sum(options, []), folder, source, CAP)
    if found is None:
        steps = r.choice((CAP, r.randrange(CAP)))
    elif r.random() < 0.3:
        steps = r.choice((found[3], found[3] - 1, found[3] + 1, 0, M64, CAP, r.randrange(CAP)))
    if steps is not None and steps >= 0:
        options.append(["--steps", str(steps)])
    r.shuffle(options)
    return kind, files, words + sum(options, []), source


def write_files(folder, files):
    for name, data in files.items():
        with open(os.path.join(folder, name), "wb") as file:
            file.write(data)


def ask(program, words, folder, source):
    """(output, line, status) of the program, or a word on its silence."""
    with open(os.path.join(folder, "input"), "wb") as file:
        file.write(source)
    with open(os.path.join(folder, "input"), "rb") as file:
        try:
            ran = subprocess.run([program] + words, cwd=folder, stdin=file, timeout=60,
                                 stdout=subprocess.PIPE, stderr=subprocess.PIPE, check=False)
        except subprocess.TimeoutExpired:
            return "no answer within 60 seconds"
    return ran.stdout, ran.stderr, ran.returncode


def compare(program, count, keep, first=0, only=None):
    """Run cases through both and keep those that differ."""
    program = os.path.abspath(program)
    os.makedirs(keep, exist_ok=True)
    kinds, statuses, lines = {}, {}, {}
    made = different = total = 0
    for name in (signal.SIGINT, signal.SIGTERM):
        signal.signal(name, signal.default_int_handler)
    try:
        for seed in range(first, first + count):
            case = make_case(seed, only)
            if case is None:
                continue
            kind, files, words, source = case
            with tempfile.TemporaryDirectory() as folder:
                write_files(folder, files)
                out, line, status, turns = command(words, folder, source)
                want = (out, (line + "\n").encode(), status)
                got = ask(program, words, folder, source)
                made += 1
                total += turns
                head = " ".join(line.split()[:4]) if status == 3 else line.split()[0]
                for counts, what in ((kinds, kind), (statuses, status), (lines, head)):
                    counts[what] = counts.get(what, 0) + 1
                if want == got:
                    continue
                different += 1
                note = "words: %s\nmodel:   %r\nprogram: %r\n" % (" ".join(words), want, got)
                place = os.path.join(keep, "case%d" % seed)
                shutil.copytree(folder, place, dirs_exist_ok=True)
                with open(os.path.join(place, "note"), "w", encoding="utf-8") as file:
                    file.write(note)
                print("case %d (%s)\n%s" % (seed, kind, note), flush=True)
    except KeyboardInterrupt:
        print("ended early")
    print("%d cases, %d different, %d turns" % (made, different, total))
    for name, counts in (("kinds", kinds), ("statuses", statuses), ("lines", lines)):
        print("%s: %s" % (name, ", ".join("%s %d" % x for x in sorted(counts.items()))))
    return different


# ------------------------------------------------------------- small checks

def small_image(build, mechanism=CALL, comps=1, **parts):
    """A small image whose home holds the code that `build` writes."""
    image = Record(version=2, mechanism=mechanism, stack_pages=4, threads=16, scheduler=0, home=0,
                   literals=b"", objects=[], entries=[], stubs=[], owners=[0] * 16)
    everyone = (1 << comps) - 1
    pairs = [1 << c for c in range(comps)] + ([everyone] if comps > 1 else [])
    image.sections = [Record(readers=p, writers=p, key=key_rule(mechanism, i),
                             page=SECTIONS // PAGE + 2 * i, pages=1) for i, p in enumerate(pairs)]
    image.comps = [Record(name=bytes([97 + c]), start=0 if c == 0 else PAGE,
                          len=PAGE if c == 0 else 0,
                          pkru=pkru_of(mechanism, image.sections, 0, c)) for c in range(comps)]
    code = Code(0)
    build(code)
    body = code.done()
    image.code = body + b"\xf4" * (2 * PAGE - len(body))
    image.abort = PAGE
    image.starts = [Record(rip=CODE, rsp=STACKS + 0x1000 + 0x4000 - 32)]
    image.__dict__.update(parts)
    return image


def small_checks():
    """Known results; each is stated beside its input."""
    def exit_with(code, reg):
        code.put("mov", 64, 7, reg)
        code.put("movimm", 0, 0)
        code.put("hlt")

    def go(image, words=(), source=b""):
        with tempfile.TemporaryDirectory() as folder:
            data = image if isinstance(image, bytes) else print_image(image)
            write_files(folder, {"x.img": data})
            return command(["run", "x.img"] + list(words), folder, source)[:3]

    def device_program(code):
        code.put("movimm64", 3, DEVICES + PAGE)
        for reg, value in ((0, 5), (1, 9), (0, 5)):
            code.put("movimm", 1, value)
            code.put("store", 64, 3, 8 * reg, 1)
        code.put("load", 64, 1, 3, 8)
        exit_with(code, 1)

    def counter_program(code):
        code.put("movimm64", 3, DEVICES + 2 * PAGE)
        code.put("load", 64, 1, 3, 0)
        code.put("load", 64, 1, 3, 0)
        exit_with(code, 1)

    def console_program(code):
        code.put("movimm64", 3, DEVICES)
        code.put("load", 64, 1, 3, 0)
        code.put("store", 64, 3, 0, 1)
        exit_with(code, 1)

    plain = small_image(lambda code: exit_with(code, 3))
    data = print_image(plain)
    assert go(plain) == (b"", "exit 0 in 3 turns", 0)
    assert go(plain, ["--steps", "3"]) == (b"", "exit 0 in 3 turns", 0)
    assert go(plain, ["--steps", "2"]) == (b"", "steps spent: 2", 8)
    assert go(plain, ["--steps", "0"]) == (b"", "steps spent: 0", 8)
    assert go(plain, ["--steps", "01"]) == (b"", "usage", 2)
    for end in range(0, len(data), 97):
        assert go(data[:end])[1] == "refused: image Short"
    assert go(data[:-1])[1:] == ("refused: image Short", 3)
    assert go(data + b"\0")[1:] == ("refused: image Extra", 3)
    assert go(b"G" + data[1:])[1:] == ("refused: image Magic", 3)
    assert go(small_image(lambda code: None))[1:] == ("exit 0 in 1 turns", 0)
    assert go(small_image(lambda code: None, stack_pages=0))[1] == "refused: image Field 5"
    assert go(small_image(lambda code: None, scheduler=1))[1] == "refused: image Field 6"
    assert go(small_image(lambda code: code.put("wrpkru")))[1] == "refused: image KeySequence 0"
    assert go(small_image(device_program))[1:] == ("exit 9 in 11 turns", 0)
    assert go(small_image(device_program), ["--unplug", "1", "3"])[1:] == ("exit -1 in 11 turns", 0)
    assert go(small_image(device_program), ["--unplug", "1", "0"])[1:] == ("exit -1 in 11 turns", 0)
    assert go(small_image(counter_program))[1:] == ("exit 1 in 6 turns", 0)
    assert go(small_image(console_program)) == (b"\xff", "exit -1 in 6 turns", 0)
    assert go(small_image(console_program), source=b"Hi") == (b"H", "exit 72 in 6 turns", 0)

    def peek(code):
        code.put("movimm64", 3, SECTIONS + 2 * PAGE + 8)
        code.put("load", 32, 1, 3, 0)

    secret = [Record(name=b"secret", section=1, address=SECTIONS + 2 * PAGE, size=16, initial=b"")]
    two = small_image(peek, LIGHT, 2, objects=secret)
    assert [comp.pkru for comp in two.comps] == [0xFFFFFCC0, 0xFFFFFC38]
    assert go(two)[1:] == ("denied: compartment a read secret+8", 1)
    assert go(small_image(peek, LIGHT, 2))[1:] == ("broken: page 0000000010002008", 10)
    assert decode_whole(bytes.fromhex("488b85f0ffffff")) == ("load", 64, 0, 5, -16)
    assert encode(("store", 16, 12, 8, 9)) == bytes.fromhex("6645898c2408000000")
    assert decode_whole(b"\x48\x8b\x45\xf0") is None and decode_whole(b"\x40\x90") is None
    assert decode_whole(b"\x01\xef") == ("alu", "add", 32, 7, 5)
    print("all small checks hold")


def main(words):
    if words[:1] == ["check"] and len(words) == 1:
        small_checks()
        return 0
    if words[:1] == ["make"] and len(words) == 3:
        kind, files, line, source = make_case(int(words[1]))
        os.makedirs(words[2], exist_ok=True)
        write_files(words[2], dict(files, input=source))
        print(kind + ": " + " ".join(line))
        return 0
    if words[:1] == ["compare"] and 4 <= len(words) <= 6:
        first = int(words[4]) if len(words) > 4 else 0
        only = words[5] if len(words) > 5 else None
        return 1 if compare(words[1], int(words[2]), words[3], first, only) else 0
    source = b"" if sys.stdin.isatty() else sys.stdin.buffer.read()
    out, line, status, _ = command(words, ".", source)
    sys.stdout.buffer.write(out)
    sys.stdout.buffer.flush()
    sys.stderr.write(line + "\n")
    return status


if __name__ == "__main__":
    sys.exit(main(sys.argv[1:]))
