#!/usr/bin/env python3
"""A second meaning of the C profile, for programs in one compartment.

This program reads a configuration and the C sources that it names, and says
what the command `single` must answer on them: the output, the line and the
status.  It was written from the language's description alone and shares
nothing with the system that it checks.  The lexer, the grammar and the type
rules are those of `second_reader.py` beside it.  It needs the standard library
alone (Python 3.11 or later).

Usage:

    second_meaning.py answer FOLDER WORD..
        prints what `flexos WORD..` prints in FOLDER, with standard input as
        the input, and ends with its status

    second_meaning.py cases FILE
        prints what the stored run of cases must print, of which FILE is the input

    second_meaning.py make COUNT [FIRST]
        prints random programs as cases of that stored run

    second_meaning.py compare PROGRAM COUNT KEEP [FIRST]
        runs the random programs FIRST to FIRST + COUNT - 1 by this meaning and
        by PROGRAM; each on which they differ is kept in a folder under KEEP

    second_meaning.py gcc COUNT KEEP [FIRST]
        the same against what gcc makes of those whose behaviour C defines

    second_meaning.py self
        answers a few worked cases and compares them with known results
"""

import os
import random
import re
import shutil
import subprocess
import sys
import tempfile

import second_reader
from second_reader import (CHAR, INT, LONG, ONE, SIZES, VOID, Body, Program, Refused, configuration,
                           decayed, is_int, is_pointer, parsed, promoted, spelled, usual)

DEFAULT_BUDGET = 50_000_000
THREADS = 16
KEPT_FREE = 96              # bytes of a stack that no frame takes
WORD = 1 << 64


# ---------------------------------------------------------------------------
# Ends

class End(Exception):
    """How a run ends: its line and its status."""

    def __init__(self, line, status):
        super().__init__(line)
        self.line = line
        self.status = status


def undefined(why):
    end = End("broken: undefined", 10)
    end.why = why
    return end


# ---------------------------------------------------------------------------
# Objects. A value is an int, None (null) or a pair of an object and an offset.

class Object:
    """A global, a literal or a local of one call: bytes, and eighths of pointers over them."""
    __slots__ = ("name", "size", "live", "literal", "bytes", "parts")

    def __init__(self, name, size, content=b"", literal=False):
        self.name = name
        self.size = size
        self.live = True
        self.literal = literal
        self.bytes = bytearray(size)
        self.bytes[:len(content)] = content
        self.parts = {}                     # offset -> (pointer, part)


def reach(pointer, width, write):
    """The object of an access that is defined."""
    if pointer is None:
        raise undefined("access through null")
    where, at = pointer
    if not where.live:
        raise undefined("access to a dead object")
    if at < 0 or at + width > where.size:
        raise undefined("access outside an object")
    if write and where.literal:
        raise undefined("write to a literal")
    return where, at


def load(pointer, ty):
    width = 8 if is_pointer(ty) else SIZES[ty[1]]
    where, at = reach(pointer, width, False)
    if is_pointer(ty):
        found = [where.parts.get(at + i) for i in range(8)]
        if found == [None] * 8:
            if any(where.bytes[at:at + 8]):
                raise undefined("bytes read as a pointer")
            return None
        if found[0] is None or found != [(found[0][0], i) for i in range(8)]:
            raise undefined("mixed cells read as a pointer")
        return found[0][0]
    if where.parts and any(at + i in where.parts for i in range(width)):
        raise undefined("pointer cells read as a number")
    return int.from_bytes(where.bytes[at:at + width], "little", signed=is_signed(ty))


def store(pointer, ty, value):
    width = 8 if is_pointer(ty) else SIZES[ty[1]]
    where, at = reach(pointer, width, True)
    if where.parts:
        for i in range(width):
            where.parts.pop(at + i, None)
    if is_pointer(ty):
        where.bytes[at:at + 8] = bytes(8)
        if value is not None:
            for i in range(8):
                where.parts[at + i] = (value, i)
    else:
        where.bytes[at:at + width] = (value % (1 << 8 * width)).to_bytes(width, "little")


# ---------------------------------------------------------------------------
# Numbers

def copy_cell(source, target, i, charge):
    """Copies cell i of what a pointer leads to; the read costs nothing here, the write 1."""
    where, at = reach(None if source is None else (source[0], source[1] + i), 1, False)
    byte, part = where.bytes[at], where.parts.get(at)
    charge(1)
    where, at = reach(None if target is None else (target[0], target[1] + i), 1, True)
    where.bytes[at] = byte
    where.parts.pop(at, None)
    if part is not None:
        where.parts[at] = part


def is_signed(ty):
    return not ty[1].startswith("u")


def wrapped(value, ty):
    bits = 8 * SIZES[ty[1]]
    value &= (1 << bits) - 1
    if is_signed(ty) and value >> bits - 1:
        value -= 1 << bits
    return value


def quotient(a, b, ty):
    """a / b towards zero, or the end of the run."""
    if b == 0:
        raise End("divide", 9)
    q = abs(a) // abs(b)
    if (a < 0) != (b < 0):
        q = -q
    if wrapped(q, ty) != q:
        raise End("divide", 9)
    return q


def arithmetic(sign, a, b, ty):
    """A binary operator at two numbers; `ty` is the type of the operands, for shifts of the left one."""
    if sign == "+":
        return wrapped(a + b, ty)
    if sign == "-":
        return wrapped(a - b, ty)
    if sign == "*":
        return wrapped(a * b, ty)
    if sign == "/":
        return quotient(a, b, ty)
    if sign == "%":
        return a - b * quotient(a, b, ty)
    if sign == "<<":
        return wrapped(a << (b & (8 * SIZES[ty[1]] - 1)), ty)
    if sign == ">>":
        return a >> (b & (8 * SIZES[ty[1]] - 1))
    if sign == "&":
        return a & b
    if sign == "|":
        return a | b
    if sign == "^":
        return a ^ b
    return int({"==": a == b, "!=": a != b, "<": a < b, ">": a > b, "<=": a <= b,
                ">=": a >= b}[sign])


# ---------------------------------------------------------------------------
# Pointers

def moved(pointer, distance):
    """A pointer's sum with a number of bytes."""
    if pointer is None:
        raise undefined("arithmetic on null")
    where, at = pointer
    if not 0 <= at + distance <= where.size:
        raise undefined("arithmetic out of the object")
    return where, at + distance


def difference(a, b, size):
    if a is None or b is None:
        raise undefined("difference with null")
    if a[0] is not b[0]:
        raise undefined("difference of different objects")
    d = a[1] - b[1]
    return abs(d) // size * (1 if d >= 0 else -1)


def known(pointer):
    """A pointer whose equality is defined."""
    if pointer is not None and not pointer[0].live:
        raise undefined("equality of a dead object's pointer")
    return pointer


def compared(sign, a, b):
    if sign in ("==", "!="):
        a, b = known(a), known(b)
        same = (a is None and b is None
                or a is not None and b is not None and a[0] is b[0] and a[1] == b[1])
        return int(same == (sign == "=="))
    if a is None and b is None:
        return int(sign in ("<=", ">="))
    if a is None or b is None or a[0] is not b[0]:
        raise undefined("order of different objects")
    return arithmetic(sign, a[1], b[1], LONG)


# ---------------------------------------------------------------------------
# Steps: each function's body as a list of pairs of a cost and an action. What
# costs nothing is no step: jumps over an `else`, the values of `&&` and `||`.

class LocalType(tuple):
    """A type, with the number of the local that has it."""
    local = None


def local_type(ty, number):
    found = LocalType(ty)
    found.local = number
    return found


class Coder(Body):
    """The steps of one function's body."""

    def __init__(self, program, function, meaning):
        super().__init__(program, function)
        self.meaning = meaning
        self.values = {}
        self.statement = None
        self.slots = []                     # sizes of the locals
        self.numbers = {}                   # statement -> local
        self.texts = {}                     # expression -> literal
        for _, ty, name in function["params"]:
            self.scopes[0][name] = self.new_local(ty)
        self.steps = []
        self.breaks = []                    # of each loop: places of jumps to its end
        self.continues = []
        super().check()
        for s in function["body"]:
            self.put_stmt(s)
        self.put(1, self.returns(None))

    def new_local(self, ty):
        self.slots.append(self.program.size(ty))
        return local_type(ty, len(self.slots) - 1)

    # what the rules say of each node

    def stmt(self, s):
        self.statement = s
        super().stmt(s)

    def stmt_local(self, shared, ty, name, init):
        ty = self.new_local(ty)
        self.numbers[id(self.statement)] = ty
        super().stmt_local(shared, ty, name, init)

    def expr(self, e):
        value = super().expr(e)
        self.values[id(e)] = value
        return value

    def type(self, e):
        return self.values[id(e)].ty

    # steps

    def put(self, cost, action):
        self.steps.append((cost, action))
        return len(self.steps) - 1

    def jump(self, to=None):
        """A jump that costs nothing; its end may be set later."""
        def action(m):
            m.at = where[0]
        where = [to]
        self.put(0, action)
        return where

    def push(self, cost, value):
        self.put(cost, lambda m: m.operands.append(value))

    def over_one(self, cost, f):
        def action(m):
            m.operands[-1] = f(m.operands[-1])
        self.put(cost, action)

    def over_two(self, cost, f):
        def action(m):
            right = m.operands.pop()
            m.operands[-1] = f(m.operands[-1], right)
        self.put(cost, action)

    # objects

    def address(self, e):
        """Puts the steps that give a pointer to the object that an expression names."""
        if e.op == "var":
            ty = self.type(e)
            if isinstance(ty, LocalType):
                number = ty.local
                self.put(1, lambda m: m.operands.append((m.frame.locals[number], 0)))
            else:
                self.push(1, (self.meaning.globals[e.parts[0]], 0))
        elif e.op == "text":
            self.push(1, (self.meaning.literal(e.parts[0]), 0))
        elif e.op == "deref":
            self.value(e.parts[0])
            self.put(1, lambda m: None)
        elif e.op == "index":
            base, index = e.parts
            self.value(base)
            self.value(index)
            size = self.program.size(self.type(e))
            self.over_two(1, lambda p, i: moved(p, size * i))
        elif e.op == "member":
            self.address(e.parts[0])
            self.member_step(self.type(e.parts[0]), e.parts[1])
        elif e.op == "arrow":
            self.value(e.parts[0])
            self.member_step(decayed(self.type(e.parts[0]))[1], e.parts[1])
        else:
            raise AssertionError(e.op)

    def member_step(self, struct, name):
        end = 0
        for ty, called in self.program.tags[struct[1]][1]:
            size, align = self.program.layout(ty)
            end = -(-end // align) * align
            if called == name:
                break
            end += size
        self.over_one(1, lambda p: moved(p, end))

    # values

    def value(self, e):
        """Puts the steps that give a value: a number or a pointer; of a struct, its address."""
        if self.values[id(e)].object:
            self.address(e)
            ty = self.type(e)
            if ty[0] == "array":
                self.put(1, lambda m: None)
            elif ty[0] != "struct":
                self.over_one(1, lambda p: load(p, ty))
            return
        getattr(self, "value_" + e.op)(e, *e.parts)

    def converted(self, e, to):
        """A value converted as by assignment."""
        self.value(e)
        self.convert(decayed(self.type(e)), to)

    def convert(self, ty, to):
        if ty == to:
            return
        if is_int(to):
            self.over_one(1, lambda n: wrapped(n, to))
        elif is_int(ty):
            self.over_one(1, lambda n: None)
        else:
            self.put(1, lambda m: None)

    def condition_value(self, e):
        """A value that is tested: a pointer becomes whether it isn't null."""
        self.value(e)
        if is_pointer(decayed(self.type(e))):
            self.over_one(1, lambda p: compared("!=", p, None))

    def test(self, e, sense):
        """A test that goes on where the value is `sense`, and jumps otherwise."""
        def action(m):
            if (m.operands.pop() != 0) != sense:
                m.at = where[0]
        where = [None]
        self.condition_value(e)
        self.put(1, action)
        return where

    def value_number(self, _e, value, ty):
        self.push(1, value)

    def value_size(self, _e, ty):
        self.push(1, self.program.size(ty))

    def value_neg(self, e, inner):
        self.converted(inner, self.type(e))
        ty = self.type(e)
        self.over_one(1, lambda n: wrapped(-n, ty))

    def value_not(self, e, inner):
        self.converted(inner, self.type(e))
        ty = self.type(e)
        self.over_one(1, lambda n: wrapped(~n, ty))

    def value_lnot(self, _e, inner):
        self.condition_value(inner)
        self.over_one(1, lambda n: int(n == 0))

    def value_addr(self, _e, inner):
        self.address(inner)
        self.put(1, lambda m: None)

    def value_cast(self, _e, to, inner):
        self.converted(inner, to)

    def value_bin(self, e, sign, left, right):
        if sign in ("&&", "||"):
            self.logical(sign == "&&", left, right)
            return
        a, b = decayed(self.type(left)), decayed(self.type(right))
        if is_int(a) and is_int(b):
            if sign in ("<<", ">>"):
                common, other = promoted(a), promoted(b)
            else:
                common = other = usual(a, b)
            self.converted(left, common)
            self.converted(right, other)
            self.over_two(1, lambda x, y: arithmetic(sign, x, y, common))
        elif sign in ("==", "!=", "<", ">", "<=", ">="):
            both = a
            if is_int(a) or is_pointer(b) and b == ("ptr", VOID):
                both = b
            self.converted(left, both)
            self.converted(right, both)
            self.over_two(1, lambda x, y: compared(sign, x, y))
        else:
            self.value(left)
            self.value(right)
            self.pointer_sum(sign, a, b)

    def pointer_sum(self, sign, a, b):
        size = self.program.size((a if is_pointer(a) else b)[1])
        if is_int(a):
            self.over_two(1, lambda i, p: moved(p, size * i))
        elif is_int(b):
            size = size if sign == "+" else -size
            self.over_two(1, lambda p, i: moved(p, size * i))
        else:
            self.over_two(1, lambda p, q: difference(p, q, size))

    def logical(self, both, left, right):
        ends = [self.test(left, both), self.test(right, both)]
        self.push(0, int(both))
        over = self.jump()
        for end in ends:
            end[0] = len(self.steps)
        self.push(0, int(not both))
        over[0] = len(self.steps)

    # calls and operations

    def value_call(self, _e, name, args):
        function = self.program.names[name]
        for arg, (_, ty, _) in zip(args, function["params"]):
            self.converted(arg, ty)
        count = len(args)

        def action(m):
            given = m.operands[len(m.operands) - count:]
            del m.operands[len(m.operands) - count:]
            m.enter(function, given)
        self.put(1 + function["frame"] // 8, action)

    value_gate = value_call

    def value_spawn(self, _e, name, inner):
        function = self.program.names[name]
        self.converted(inner, LONG)
        self.over_one_of(lambda m, x: m.spawn(function, x))

    def over_one_of(self, f):
        def action(m):
            m.operands[-1] = f(m, m.operands[-1])
        self.put(1, action)

    def value_switch(self, _e, inner):
        self.converted(inner, LONG)
        self.put(1, lambda m: m.switch(m.operands.pop()))

    def value_self(self, _e):
        self.put(1, lambda m: m.operands.append(m.current))

    def value_getc(self, e):
        self.value_in(e, 0, 0)

    def value_in(self, _e, device, register):
        self.put(1, lambda m: m.operands.append(wrapped(m.world.load(device, register), LONG)))

    def value_putc(self, e, inner):
        self.value_out(e, 0, 0, inner)

    def value_out(self, _e, device, register, inner):
        self.converted(inner, LONG)
        self.put(1, lambda m: m.world.store(device, register, m.operands.pop() % WORD))

    # statements

    def put_stmt(self, s):
        getattr(self, "put_" + s.form)(s, *s.parts)

    def put_empty(self, _s):
        pass

    def put_block(self, _s, body):
        for s in body:
            self.put_stmt(s)

    def put_local(self, s, _shared, _ty, _name, init):
        if init is None:
            return
        ty = self.numbers[id(s)]
        number = ty.local
        self.put(1, lambda m: m.operands.append((m.frame.locals[number], 0)))
        self.assigned(ty, init)

    def put_assign(self, _s, left, right):
        self.address(left)
        self.assigned(self.type(left), right)

    def assigned(self, ty, right):
        if ty[0] == "struct":
            self.address(right)
            size = self.program.size(ty)
            self.put(0, lambda m: m.copy(size))
            return
        self.converted(right, ty)

        def action(m):
            value = m.operands.pop()
            store(m.operands.pop(), ty, value)
        self.put(1, action)

    def put_eval(self, _s, e):
        self.value(e)
        if self.type(e) != VOID:
            self.put(0, lambda m: m.operands.pop())

    def put_if(self, _s, condition, then, other):
        end = self.test(condition, True)
        self.put_stmt(then)
        if other is not None:
            over = self.jump()
            end[0] = len(self.steps)
            self.put_stmt(other)
            end = over
        end[0] = len(self.steps)

    def jump_back(self, to):
        def action(m):
            m.at = to
        self.put(1, action)

    def leave(self, places):
        """`break` and `continue`."""
        def action(m):
            m.at = where[0]
        where = [None]
        self.put(1, action)
        places[-1].append(where)

    def put_loop(self, condition, body):
        """A loop up to its body's end; gives the place where it begins."""
        begin = len(self.steps)
        end = None if condition is None else self.test(condition, True)
        self.breaks.append([] if end is None else [end])
        self.continues.append([])
        self.put_stmt(body)
        return begin

    def close_loop(self, onward):
        for where in self.continues.pop():
            where[0] = onward
        for where in self.breaks.pop():
            where[0] = len(self.steps)

    def put_while(self, _s, condition, body):
        begin = self.put_loop(condition, body)
        self.jump_back(begin)
        self.close_loop(begin)

    def put_for(self, _s, first, condition, third, body):
        if first is not None:
            self.put_stmt(first)
        begin = self.put_loop(condition, body)
        onward = len(self.steps)
        if third is not None:
            self.put_stmt(third)
        self.jump_back(begin)
        self.close_loop(onward)

    def put_break(self, _s):
        self.leave(self.breaks)

    def put_continue(self, _s):
        self.leave(self.continues)

    def put_return(self, _s, e):
        if e is not None:
            self.converted(e, self.function["result"])
            self.put(1, self.returns(lambda m: m.operands.pop()))
        else:
            self.put(1, self.returns(None))

    def returns(self, value):
        result = self.function["result"]
        nothing = 0 if is_int(result) else None

        def action(m):
            m.leave(result, nothing if value is None else value(m))
        return action


# ---------------------------------------------------------------------------
# Runs

class Frame:
    __slots__ = ("function", "steps", "locals", "at", "size")


class Thread:
    """A thread's frames, its pending operands, and its bytes in use."""

    def __init__(self):
        self.frames = []
        self.operands = []
        self.use = 0
        self.fresh = None                   # the function that it begins with, and its argument
        self.ended = False


class Meaning:
    """The objects and the steps of a program."""

    def __init__(self, program):
        self.program = program
        self.globals = {g["name"]: self.new_global(g) for g in program.globals}
        self.code = {f["name"]: Coder(program, f, self) for f in program.functions}

    def new_global(self, g):
        init, size = g["init"], self.program.size(g["type"])
        if init is None:
            init = b""
        elif not isinstance(init, bytes):
            init = (init % (1 << 8 * size)).to_bytes(size, "little")
        return Object(g["name"], size, init)

    @staticmethod
    def literal(content):
        return Object("a literal", len(content) + 1, content, literal=True)


class Run:
    """A run within a budget of cost."""

    def __init__(self, meaning, stack, budget, world):
        self.meaning = meaning
        self.stack = stack
        self.budget = budget
        self.world = world
        self.cost = 0
        self.threads = [Thread()]
        self.current = 0
        self.threads[0].fresh = (meaning.program.names["main"], [])
        self.take_up(0)

    def charge(self, cost):
        if self.cost >= self.budget:
            raise End(f"steps spent: {self.budget}", 8)
        self.cost += cost

    def take_up(self, number):
        self.current = number
        thread = self.threads[number]
        self.thread = thread
        self.operands = thread.operands
        if thread.frames:
            self.frame = thread.frames[-1]
            self.at = self.frame.at

    def enter(self, function, given):
        size = function["frame"]
        thread = self.thread
        if thread.use + size + KEPT_FREE > self.stack:
            raise End(f"stack full: thread {self.current} stack common", 7)
        thread.use += size
        if thread.frames:
            self.frame.at = self.at
        code = self.meaning.code[function["name"]]
        frame = Frame()
        frame.function = function
        frame.steps = code.steps
        frame.size = size
        frame.locals = [Object("a local", size) for size in code.slots]
        for (_, ty, _), value, where in zip(function["params"], given, frame.locals):
            store((where, 0), ty, value)
        thread.frames.append(frame)
        self.frame = frame
        self.at = 0

    def leave(self, result, value):
        thread = self.thread
        for where in self.frame.locals:
            where.live = False
        thread.use -= self.frame.size
        thread.frames.pop()
        if thread.frames:
            self.frame = thread.frames[-1]
            self.at = self.frame.at
            if result != VOID:
                self.operands.append(value)
        elif self.current == 0:
            shown = wrapped(value, LONG) if is_int(result) else 0
            raise End(f"exit {shown} in {self.cost} steps", 0)
        else:
            thread.ended = True
            self.take_up(0)

    def copy(self, size):
        source = self.operands.pop()
        target = self.operands.pop()
        for i in range(size):
            self.charge(1)
            copy_cell(source, target, i, self.charge)

    def spawn(self, function, argument):
        if len(self.threads) == THREADS:
            raise End("threads full", 9)
        thread = Thread()
        thread.fresh = (function, [argument])
        self.threads.append(thread)
        return len(self.threads) - 1

    def switch(self, number):
        if not 0 <= number < len(self.threads) or self.threads[number].ended:
            raise End("bad thread", 9)
        if number == self.current:
            return
        self.frame.at = self.at
        self.take_up(number)

    def go(self):
        while True:
            if self.thread.fresh is not None:
                function, given = self.thread.fresh
                self.charge(1 + function["frame"] // 8)
                self.thread.fresh = None
                self.enter(function, given)
            cost, action = self.frame.steps[self.at]
            if cost:
                self.charge(cost)
            self.at += 1
            action(self)


# ---------------------------------------------------------------------------
# Devices and streams

class Store:
    """A store of words: register 0 is the position, register 1 the word there."""

    def __init__(self, words):
        self.words = {}
        self.count = words
        self.position = 0

    def load(self, register):
        if register == 0:
            return self.position
        return self.words.get(self.position, 0) if register == 1 else 0

    def store(self, register, value):
        if register == 0:
            self.position = value
        elif register == 1 and self.position < self.count:
            self.words[self.position] = value


class Counter:
    """A counter; its calls of these numbers fail."""

    def __init__(self, failing=()):
        self.value = 0
        self.failing = failing
        self.calls = 0

    def called(self):
        self.calls += 1
        if self.calls in self.failing:
            raise End("device fault: 2", 11)

    def load(self, register):
        self.called()
        if register != 0:
            return 0
        self.value = (self.value + 1) % WORD
        return (self.value - 1) % WORD

    def store(self, register, value):
        self.called()
        if register == 0:
            self.value = value


class World:
    """The devices, the input and the output of a run."""

    def __init__(self, given=b"", words=65_536, failing_counts=(), failing_reads=(), room=None):
        self.given = given
        self.reads = 0
        self.taken = 0
        self.failing_reads = failing_reads
        self.room = room
        self.output = bytearray()
        self.devices = {1: Store(words), 2: Counter(failing_counts)}

    def load(self, device, register):
        if (device, register) == (0, 0):
            return self.read()
        if device in self.devices:
            return self.devices[device].load(register)
        return WORD - 1

    def read(self):
        self.reads += 1
        if self.reads in self.failing_reads:
            raise End("read fault", 12)
        if self.taken == len(self.given):
            return WORD - 1
        self.taken += 1
        return self.given[self.taken - 1]

    def store(self, device, register, value):
        if (device, register) == (0, 0):
            if self.room is not None and len(self.output) >= self.room:
                raise End("write fault", 5)
            self.output.append(value & 255)
        elif device in self.devices:
            self.devices[device].store(register, value)


# ---------------------------------------------------------------------------
# The command

def number_word(text):
    """The number that a word is."""
    if re.fullmatch("0|[1-9][0-9]*", text) and int(text) < WORD:
        return int(text)
    return None


def single_words(words):
    """The configuration's name and the budget, or None."""
    if len(words) not in (2, 4) or words[0] != "single":
        return None
    if not words[1] or words[1].startswith("-"):
        return None
    if len(words) == 2:
        return words[1], DEFAULT_BUDGET
    budget = number_word(words[3])
    if words[2] != "--steps" or budget is None:
        return None
    return words[1], budget


def program_of(name, files, failing_files=()):
    """The configuration and the checked program."""
    calls = 0

    def read(name, limit):
        nonlocal calls
        calls += 1
        if calls in failing_files:
            raise Refused(f"file fault: {name}", status=4)
        if name not in files:
            raise Refused(f"no file: {name}", status=4)
        if len(files[name]) > limit:
            raise Refused(f"file too long: {name}", status=4)
        return files[name]

    config = configuration(read(name, second_reader.FILE_LIMIT))
    sources = [(number, read(file, second_reader.SOURCE_LIMIT))
               for number, library in enumerate(config["library"])
               for file in library["files"]]
    units = [(library, parsed(file, text)) for file, (library, text) in enumerate(sources)]
    return config, Program([(library, d) for library, unit in units for d in unit])


def single(words, files, world, failing_files=()):
    """The answer of the command: the output, the line and the status."""
    given = single_words(words)
    if given is None:
        return b"", "usage", 2
    name, budget = given
    try:
        config, program = program_of(name, files, failing_files)
        stack = second_reader.PAGE * config.get("stack_pages", 4)
        Run(Meaning(program), stack, budget, world).go()
    except (Refused, End) as end:
        return bytes(world.output), end.line, end.status
    raise AssertionError


# ---------------------------------------------------------------------------
# The cases of the stored run

class Case:
    """A case of the stored run, in the form that its program reads."""

    def __init__(self, title):
        self.title = title
        self.words = ["single", "c.toml"]
        self.first = ""
        self.names = ["a.c"]
        self.texts = [""]
        self.input = ""
        self.file_calls = []
        self.line_calls = []
        self.counts = []
        self.reads = []
        self.room = None

    def add(self, line):
        mark, rest = line[:3], line[3:].strip()
        if mark == "---":
            self.names.append(rest)
            self.texts.append("")
        elif mark == ">>>":
            self.words = rest.split()
        elif mark == "+++":
            self.first += rest + "\n"
        elif mark == "<<<":
            self.input += rest
        elif mark == "%%%":
            self.file_calls.append(int(rest))
        elif mark == "$$$":
            self.line_calls.append(int(rest))
        elif mark == "!!!":
            self.counts.append(int(rest))
        elif mark == "???":
            self.reads.append(int(rest))
        elif mark == "###":
            self.room = int(rest)
        else:
            self.texts[-1] += line + "\n"

    def files(self):
        files = {name: text.encode() for name, text in zip(self.names, self.texts)}
        files.setdefault("c.toml", (self.first + ONE).encode())
        return files

    def shown(self):
        world = World(self.input.encode(), 64, self.counts, self.reads, self.room)
        output, line, status = single(self.words, self.files(), world, self.file_calls)
        text = f"==={self.title}\n"
        if status == 2:
            return text + "usage\n"
        if 1 in self.line_calls:
            # The line can't be put: a write fault, whose own line is tried once.
            again = status != 5 and 2 not in self.line_calls
            line, status = "write fault" if again else "", 5
        if output:
            try:
                text += output.decode() + "\n"
            except UnicodeDecodeError:
                text += "no text\n"
        return text + f"{line}\nstatus {status}\n"


def cases_of(text):
    cases = []
    for line in text.splitlines():
        if line.startswith("==="):
            cases.append(Case(line[3:]))
        elif cases:
            cases[-1].add(line)
    return cases


# ---------------------------------------------------------------------------
# Random programs. Those for gcc are defined in C, and what they do does not
# depend on the order in which operands are evaluated.

EDGES = [0, 1, 2, 3, 5, 7, 8, 15, 31, 63, 100, 127, 128, 255, 256, 1000, 32767, 32768, 65535, 65536,
         2147483647, 2147483648, 4294967295, 4294967296, 9223372036854775807]
INTEGERS = [("int", name) for name in SIZES]
PRELUDE = """void digits(long n) { if (n <= -10) digits(n / 10); __putc('0' - n % 10); }
void put(long n) { if (n < 0) __putc('-'); else n = 0 - n; digits(n); __putc(' '); }
"""


class Place:
    """An object that a program may name: its text, its type, and what is known of a pointer."""

    def __init__(self, text, ty, reach=0):
        self.text = text
        self.ty = ty
        self.reach = reach      # of a pointer: how many elements stand behind it for certain


class Writer:
    """A random program. `wild` of a hundred choices may be undefined; 0 for gcc."""

    def __init__(self, seed, for_gcc=False):
        self.r = random.Random(f"meaning {seed}")
        self.for_gcc = for_gcc
        self.wild = 0 if for_gcc else self.r.choice([0, 0, 0, 1, 3, 10])
        self.lines = []
        self.count = 0
        self.functions = []                 # (name, result, parameters)
        self.threads = []
        self.globals = []

    # small choices

    def chance(self, of_hundred):
        return self.r.random() * 100 < of_hundred

    def name(self, start):
        self.count += 1
        return f"{start}{self.count}"

    def integer(self):
        return self.r.choice(INTEGERS)

    def strange(self):
        return self.wild and self.chance(self.wild)

    def number(self):
        r = self.r
        if r.random() < 0.6:
            n = r.randint(0, 9)
        elif r.random() < 0.7:
            n = r.choice(EDGES)
        else:
            n = r.getrandbits(r.choice([8, 16, 31, 32, 33, 63]))
        text = hex(n) if r.random() < 0.2 else str(n)
        return text + r.choice(["", "", "", "L", "U", "UL"] if n < 1 << 63 else ["UL"])

    # expressions of integers

    def ints(self):
        return [p for p in self.scope() if is_int(p.ty)]

    def scope(self):
        return self.globals + [p for places in self.scopes for p in places]

    def pointers(self):
        return [p for p in self.scope() if is_pointer(p.ty)]

    def arrays(self):
        return [p for p in self.scope() if p.ty[0] == "array" and is_int(p.ty[1])]

    def index(self, length, depth):
        if self.strange():
            return self.r.choice([str(length), "-1", str(length + 1), self.value(depth - 1)])
        if self.r.random() < 0.4 or depth <= 0:
            return str(self.r.randrange(length))
        if length & length - 1 == 0:
            return f"{self.value(depth - 1)} & {length - 1}"
        return f"(unsigned){self.value(depth - 1)} % {length}"

    def element(self, depth):
        """The text of an integer object that isn't a plain variable, with its type; or None."""
        r, found = self.r, []
        for p in r.sample(self.scope(), min(6, len(self.scope()))):
            if p.ty[0] == "array" and is_int(p.ty[1]):
                found.append((f"{p.text}[{self.index(p.ty[2], depth)}]", p.ty[1]))
            elif p.ty[0] == "array" and p.ty[1][0] == "array" and is_int(p.ty[1][1]):
                first, second = self.index(p.ty[2], depth), self.index(p.ty[1][2], depth)
                found.append((f"{p.text}[{first}][{second}]", p.ty[1][1]))
            elif is_pointer(p.ty) and is_int(p.ty[1]) and (p.reach or self.strange()):
                if r.random() < 0.5:
                    found.append((f"*{p.text}", p.ty[1]))
                else:
                    found.append((f"{p.text}[{self.index(max(1, p.reach), depth)}]", p.ty[1]))
            elif p.ty[0] == "struct":
                found.extend(self.member_of(p.text + ".", depth))
            elif is_pointer(p.ty) and p.ty[1][0] == "struct" and (p.reach or self.strange()):
                found.extend(self.member_of(p.text + "->", depth))
        return r.choice(found) if found else None

    def member_of(self, text, depth):
        member = self.r.choice(["a", "b", "c", "d", "e"])
        if member == "d":
            return [(f"{text}d[{self.index(4, depth)}]", ("int", "short"))]
        ty = {"a": "char", "b": "long", "c": "int", "e": "uchar"}[member]
        return [(text + member, ("int", ty))]

    def lvalue(self, depth):
        """An integer object: its text and its type."""
        if self.ints() and self.r.random() < 0.5:
            p = self.r.choice(self.ints())
            return p.text, p.ty
        found = self.element(depth)
        if found:
            return found
        p = self.r.choice(self.ints() or [Place("g0", LONG)])
        return p.text, p.ty

    def value(self, depth):
        """An expression of an integer, in parentheses where it needs them."""
        r = self.r
        if depth <= 0 or r.random() < 0.2:
            return self.number() if r.random() < 0.4 else self.lvalue(0)[0]
        kind = r.choices(["binary", "unary", "cast", "compare", "logic", "shift", "divide",
                          "lvalue", "call", "size", "pointers", "view", "special"],
                         [24, 8, 8, 9, 6, 8, 6, 14, 5, 1, 6, 3, 2])[0]
        return getattr(self, "value_" + kind)(depth - 1)

    def value_binary(self, depth):
        sign = self.r.choice(["+", "-", "*", "&", "|", "^"])
        return f"({self.value(depth)} {sign} {self.value(depth)})"

    def value_unary(self, depth):
        return f"{self.r.choice(['- ', '~', '!'])}{self.value(depth)}"

    def value_cast(self, depth):
        return f"({spelled(self.integer()).strip()}){self.value(depth)}"

    def value_compare(self, depth):
        sign = self.r.choice(["<", ">", "<=", ">=", "==", "!="])
        return f"({self.value(depth)} {sign} {self.value(depth)})"

    def value_logic(self, depth):
        return f"({self.value(depth)} {self.r.choice(['&&', '||'])} {self.value(depth)})"

    def value_shift(self, depth):
        sign = self.r.choice(["<<", ">>"])
        left = self.value(depth)
        if self.for_gcc:
            return f"({left} {sign} ({self.value(depth)} & 31))"
        return f"({left} {sign} {self.value(depth)})"

    def value_divide(self, depth):
        sign = self.r.choice(["/", "%"])
        if self.strange():
            return f"({self.value(depth)} {sign} {self.value(depth)})"
        return f"({self.value(depth)} {sign} ({self.value(depth)} & 1023 | {self.r.randint(1, 9)}))"

    def value_lvalue(self, depth):
        text, _ = self.lvalue(depth)
        return f"(*&{text})" if self.r.random() < 0.1 else text

    def value_call(self, depth):
        if self.for_gcc:
            return self.value_lvalue(depth)
        callable_ = [f for f in self.functions if is_int(f[1])]
        if not callable_:
            return self.value_lvalue(depth)
        return self.call(self.r.choice(callable_), depth)

    def value_size(self, _depth):
        return f"sizeof({self.r.choice(['char', 'short', 'int *', 'long[3]', 'struct s', 'unsigned'])})"

    def value_pointers(self, depth):
        """A comparison or difference of pointers into one array."""
        if not self.arrays():
            return self.value_lvalue(depth)
        p = self.r.choice(self.arrays())
        if self.r.random() < 0.2:
            other = self.r.choice(self.pointers() or [p])
            return f"((void *){p.text} {self.r.choice(['==', '!='])} (void *){other.text})"
        q = self.r.choice(self.arrays()) if self.strange() else p
        first = f"({p.text} + {self.r.randint(0, p.ty[2])})"
        if p.ty != q.ty:
            q = p
        second = f"&{q.text}[{self.index(q.ty[2], depth)}]"
        sign = self.r.choice(["<", ">", "<=", ">=", "==", "!=", "-"])
        return f"({first} {sign} {second})"

    def value_view(self, depth):
        """Bytes of an array read as a number of another type."""
        if not self.arrays():
            return self.value_lvalue(depth)
        p, ty = self.r.choice(self.arrays()), self.integer()
        size = p.ty[2] * SIZES[p.ty[1][1]]
        room = size - SIZES[ty[1]] + (3 if self.strange() else 0)
        if room < 0:
            return self.value_lvalue(depth)
        return f"(*({spelled(ty).strip()} *)((char *){p.text} + {self.r.randint(0, room)}))"

    def value_special(self, depth):
        if self.for_gcc:
            return self.value_lvalue(depth)
        return self.r.choice(["__getc()", "__self()", "__in(2, 0)", "__in(1, 1)", "__in(1, 0)",
                              "__in(5, 3)", '"text"[2]', f"{self.string()}[{self.index(4, 0)}]"])

    def string(self):
        return self.r.choice(['"abc"', '"x\\ny"', '"\\\\\\"0"'])

    # pointers

    def pointer(self, ty, depth):
        """A pointer of a type `ty *`: its text, and the elements that stand behind it for certain."""
        r, found = self.r, []
        if self.strange():
            kind = r.randrange(5)
            if kind == 0:
                return "0", 0
            if kind == 1 and self.pointers():
                return f"({spelled(ty).strip()} *){r.choice(self.pointers()).text}", 0
            if kind == 2 and ty == LONG and self.dead:
                return f"{self.dead}()", 0
            if kind == 3 and ty == CHAR:
                return self.string(), 4
        for p in self.scope():
            if p.ty == ty:
                found.append((f"&{p.text}", 1))
            elif p.ty[0] == "array" and p.ty[1] == ty:
                length = p.ty[2]
                at = r.randrange(length)
                found.append((p.text if at == 0 else f"{p.text} + {at}", length - at))
                found.append((f"&{p.text}[{at}]", length - at))
            elif p.ty == ("ptr", ty) and p.reach:
                found.append((p.text, p.reach))
        return r.choice(found) if found else None

    # calls

    def call(self, function, depth):
        name, _, parameters = function
        return f"{name}({', '.join(self.argument(ty, reach, depth) for ty, reach in parameters)})"

    def argument(self, ty, reach, depth):
        if is_int(ty):
            return self.value(depth)
        for _ in range(20):
            found = self.pointer(ty[1], depth)
            if found and (found[1] >= reach or self.strange()):
                return found[0]
        return {"long": "gl", "char": "gc", "int": "gi"}.get(ty[1][1], "&gs")

    # statements

    def put(self, indent, text):
        self.lines.append("  " * indent + text)

    def statement(self, indent, depth):
        r = self.r
        kinds = ["assign", "assign", "assign", "print", "declare", "if", "for", "while", "call",
                 "struct", "pointer", "block", "leave", "special", "odd"]
        weights = [14, 10, 6, 8, 8, 8, 5, 4, 6, 3, 4, 2, 3, 3, 6 if self.wild else 2]
        if depth <= 0:
            kinds, weights = kinds[:5] + ["call"], weights[:5] + [3]
        getattr(self, "stmt_" + r.choices(kinds, weights)[0])(indent, depth)

    def statements(self, indent, depth, count):
        self.scopes.append([])
        for _ in range(count):
            self.statement(indent, depth)
        self.scopes.pop()

    def stmt_assign(self, indent, _depth):
        text, _ = self.lvalue(1)
        self.put(indent, f"{text} = {self.value(3)};")

    def stmt_print(self, indent, _depth):
        self.put(indent, f"put({self.value(3)});")

    def stmt_declare(self, indent, _depth):
        r = self.r
        if r.random() < 0.25:
            ty = r.choice([LONG, CHAR, INT, ("struct", "s")])
            found = self.pointer(ty, 2)
            if found:
                name = self.name("p")
                self.put(indent, f"{spelled(('ptr', ty), name)} = {found[0]};")
                self.scopes[-1].append(Place(name, ("ptr", ty), found[1]))
                return
        name, ty = self.name("v"), self.integer()
        bare = not self.for_gcc and r.random() < 0.2
        self.put(indent, f"{spelled(ty, name)};" if bare else f"{spelled(ty, name)} = {self.value(3)};")
        self.scopes[-1].append(Place(name, ty))

    def stmt_if(self, indent, depth):
        self.put(indent, f"if ({self.value(3)}) {{")
        self.statements(indent + 1, depth - 1, self.r.randint(0, 3))
        if self.r.random() < 0.5:
            self.put(indent, "} else {")
            self.statements(indent + 1, depth - 1, self.r.randint(0, 3))
        self.put(indent, "}")

    def looped(self, indent, depth):
        self.loops += 1
        self.statements(indent, depth - 1, self.r.randint(1, 3))
        self.loops -= 1

    def stmt_for(self, indent, depth):
        name = self.name("i")
        self.put(indent, f"int {name} = 0;")
        limit = self.r.randint(1, 5)
        self.put(indent, f"for ({name} = 0; {name} < {limit}; {name} = {name} + 1) {{")
        if self.r.random() < 0.7:
            self.put(indent + 1, f"put({name});")
        self.looped(indent + 1, depth)
        self.put(indent, "}")

    def stmt_while(self, indent, depth):
        name = self.name("w")
        self.put(indent, f"int {name} = {self.r.randint(1, 5)};")
        self.put(indent, f"while ({name} && {self.value(2)}) {{")
        self.put(indent + 1, f"{name} = {name} - 1;")
        self.looped(indent + 1, depth)
        self.put(indent, "}")

    def stmt_leave(self, indent, _depth):
        if self.loops:
            self.put(indent, f"if ({self.value(2)}) {self.r.choice(['break', 'continue'])};")
        elif self.r.random() < 0.3:
            self.put(indent, f"if ({self.value(2)}) {self.returned()}")

    def stmt_block(self, indent, depth):
        self.put(indent, "{")
        self.statements(indent + 1, depth - 1, self.r.randint(0, 3))
        self.put(indent, "}")

    def stmt_call(self, indent, _depth):
        if not self.functions:
            return
        function = self.r.choice(self.functions)
        call = self.call(function, 2)
        if is_int(function[1]) and self.r.random() < 0.7:
            if self.for_gcc:
                name = self.name("v")
                self.put(indent, f"{spelled(function[1], name)} = {call};")
                self.put(indent, f"put({name});")
            else:
                self.put(indent, f"{self.lvalue(1)[0]} = {call};")
        else:
            self.put(indent, f"{call};")

    def stmt_struct(self, indent, _depth):
        places = [p.text for p in self.scope() if p.ty == ("struct", "s")]
        places += [f"*{p.text}" for p in self.pointers() if p.ty[1] == ("struct", "s") and p.reach]
        left, right = self.r.choice(places), self.r.choice(places)
        self.put(indent, f"{left} = {right};")

    def stmt_pointer(self, indent, _depth):
        own = [p for p in self.pointers() if p.reach or self.wild]
        if not own:
            return
        p = self.r.choice(own)
        for _ in range(10):
            found = self.pointer(p.ty[1], 2)
            # What a loop or a branch brings is known only where it is no less.
            if found and (found[1] >= p.reach or self.strange()) and self.lives(p, found[0]):
                self.put(indent, f"{p.text} = {found[0]};")
                return

    def lives(self, p, text):
        """Whether what a text names lives as long as a pointer does: globals outlive all."""
        if p in self.globals or self.strange():
            return any(re.search(rf"\b{re.escape(g.text)}\b", text) for g in self.globals) or self.strange()
        return True

    def stmt_special(self, indent, _depth):
        if self.for_gcc:
            self.put(indent, f"__putc({self.r.randint(33, 126)});")
            return
        r = self.r
        kind = r.randrange(4)
        if kind == 0:
            self.put(indent, f"__out({r.choice([1, 1, 2, 4])}, {r.choice([0, 1, 1])}, {self.value(2)} & 15);")
        elif kind == 1 and self.threads and self.in_main:
            self.put(indent, f"__spawn({r.choice(self.threads)}, {self.value(2)});")
            self.spawned += 1
        elif kind == 2 and self.spawned and (self.fresh or self.strange()):
            self.put(indent, f"__switch({self.fresh});")
            self.fresh = 0
        else:
            self.put(indent, f"__putc({r.randint(33, 126)});")

    def stmt_odd(self, indent, _depth):
        """Statements that make something undefined, now and then, and values that are not used."""
        r = self.r
        if self.for_gcc:
            self.put(indent, ";")
            return
        if self.wild and self.chance(30):
            self.put(indent, r.choice([
                "*(char *)&gp = 1;", "gp = dead();", "*gp = 1;", "gp = 0;", "gp = gl + 8;", "gp = gl - 1;",
                "put(*(long *)&gp);", "gp = *(long **)&gl[1];", "put(gp == gl);", "if (gp) put(1);",
                '"abc"[1] = 1;', "put(gp - gl);", "put(gp < gl);", "gs = *(struct s *)gl;",
                "*(struct h *)&gp = *(struct h *)((char *)&gp + 4);", "put(over(1));",
                "*(struct s *)gl = gs;", "gq->b = 1;", "put((char *)&gq->b - (char *)gq);"]))
            return
        self.put(indent, r.choice([";", f"{self.value(2)};", "gp = gl;", "gp = &gl[3];", "gs;", "gl;",
                                   "gt = gs;", "gq = &gs;", "*&gp = gp;",
                                   "*(struct h *)&gp = *(struct h *)&gp;", "if (!gp) gp = gl;"]))

    # functions

    def returned(self):
        if is_int(self.result):
            return f"return {self.value(3)};"
        return "return;"

    def function(self, name, result, parameters, count):
        self.result, self.loops = result, 0
        names = [self.name("x") for _ in parameters]
        self.scopes = [[Place(n, ty, reach) for n, (ty, reach) in zip(names, parameters)]]
        heads = ", ".join(spelled(ty, n) for n, (ty, _) in zip(names, parameters))
        self.put(0, f"{spelled(result, name)}({heads}) {{")
        self.scopes.append([])
        for _ in range(self.r.randint(0, 2)):
            local, ty = self.name("a"), self.r.choice([LONG, CHAR, INT, ("int", "ushort")])
            whole = ("array", ty, self.r.choice([1, 3, 4, 8]))
            self.put(1, spelled(whole, local) + ";")
            self.scopes[-1].append(Place(local, whole))
        if self.r.random() < 0.3:
            local = self.name("t")
            self.put(1, f"struct s {local};")
            self.scopes[-1].append(Place(local, ("struct", "s")))
        for _ in range(count):
            self.statement(1, 3)
        if result != VOID and (self.for_gcc or self.r.random() < 0.9):
            self.put(1, self.returned())
        self.scopes = []
        self.put(0, "}")

    def text(self):
        r = self.r
        self.dead = "" if self.for_gcc else "dead"
        self.in_main, self.spawned, self.fresh = False, 0, 0
        self.lines = ["struct s { char a; long b; int c; short d[4]; unsigned char e; };",
                      "struct s gs; struct s gt; long gl[8]; char gc[8] = \"chars\"; int gi[8]; long g0 = 5;"]
        self.globals = [Place("gs", ("struct", "s")), Place("gt", ("struct", "s")),
                        Place("gl", ("array", LONG, 8)), Place("gc", ("array", CHAR, 8)),
                        Place("gi", ("array", INT, 8)), Place("g0", LONG)]
        for _ in range(r.randint(1, 4)):
            name, ty = self.name("g"), self.integer()
            self.put(0, f"{spelled(ty, name)} = {r.choice(['', '-'])}{r.choice(EDGES)};")
            self.globals.append(Place(name, ty))
        if r.random() < 0.5:
            self.put(0, "short gm[3][4];")
            self.globals.append(Place("gm", ("array", ("array", ("int", "short"), 4), 3)))
        self.lines += PRELUDE.splitlines()
        if not self.for_gcc:
            self.lines += ["struct h { int a; };", "long *gp; struct s *gq;",
                           "long *dead() { long x; return &x; }",
                           "int over(int n) { long room[40]; return 1 + over(n + 1); }"]
            self.globals.append(Place("gp", ("ptr", LONG), 0))
        for _ in range(r.randint(0, 3)):
            name, result = self.name("f"), r.choice(INTEGERS + [VOID])
            parameters = [(self.integer(), 0) if r.random() < 0.7
                          else (("ptr", r.choice([LONG, CHAR, INT])), r.choice([1, 1, 4]))
                          for _ in range(r.randint(0, 4))]
            self.function(name, result, parameters, r.randint(1, 6))
            self.functions.append((name, result, parameters))
        if not self.for_gcc and r.random() < 0.5:
            self.put(0, "void yield() { __switch(0); }")
            self.functions.append(("yield", VOID, []))
            for _ in range(r.randint(1, 2)):
                name = self.name("th")
                self.function(name, LONG, [(LONG, 0)], r.randint(1, 5))
                self.threads.append(name)
        self.in_main = True
        self.main_text()
        return "\n".join(self.lines) + "\n"

    def main_text(self):
        r = self.r
        result = r.choice(INTEGERS) if self.for_gcc or r.random() < 0.9 else VOID
        self.function("main", result, [], r.randint(3, 12))
        if self.threads:
            # Each thread is switched to in turn, so that most of them are live when they are.
            last = self.lines.pop()
            close = []
            if result != VOID and self.lines[-1].startswith("  return"):
                close = [self.lines.pop()]
            for number in range(1, r.randint(1, 3) + 1):
                self.put(1, f"__spawn({r.choice(self.threads)}, {r.randint(0, 9)});")
                self.put(1, f"__switch({number});")
                if r.random() < 0.1:
                    self.put(1, f"__switch({r.choice([0, number])});")
            self.lines += close + [last]


def random_case(seed):
    """A random program, with a random budget and input, as a case of the stored run."""
    r = random.Random(f"case {seed}")
    case = Case(f"random {seed}")
    case.texts[0] = Writer(seed).text()
    budget = r.choice([20_000, 20_000, 20_000, r.randint(1, 3000), r.randint(1, 200)])
    case.words += ["--steps", str(budget)]
    case.input = "".join(r.choice("abcxyz019") for _ in range(r.choice([0, 0, 3, 9])))
    if r.random() < 0.3:
        case.first = f"stack_pages = {r.choice([1, 2, 64])}\n"
    return case


def written(case):
    """A case as the stored run reads it."""
    text = f"==={case.title}\n>>> {' '.join(case.words)}\n"
    if case.first:
        text += f"+++ {case.first}"
    if case.input:
        text += f"<<< {case.input}\n"
    return text + case.texts[0]


# ---------------------------------------------------------------------------
# Comparison

def answer_of(program, words, folder, given):
    """What a program answers: the output, the line and the status."""
    try:
        done = subprocess.run([program, *words], cwd=folder, capture_output=True, input=given,
                              timeout=300)
    except subprocess.TimeoutExpired:
        return b"", "no answer in five minutes", None
    return done.stdout, done.stderr.decode("utf-8", "replace").rstrip("\n"), done.returncode


def keep(folder, kept, name, answers):
    target = os.path.join(kept, re.sub(r"[^\w.-]", "_", name)[:60])
    os.makedirs(kept, exist_ok=True)
    shutil.rmtree(target, ignore_errors=True)
    shutil.move(folder, target)
    with open(os.path.join(target, "answers.txt"), "w", encoding="utf-8") as file:
        for who, answer in answers:
            file.write(f"{who}: {answer!r}\n")
    print(f"{name}:", *[f"{who} {answer!r}" for who, answer in answers], flush=True)


def compare(program, seeds, kept):
    """Random programs by this meaning and by a program; those on which they differ are kept."""
    program = os.path.abspath(program)
    counts, differences = {}, 0
    for seed in seeds:
        case = random_case(seed)
        folder = tempfile.mkdtemp(prefix="single-")
        files = case.files()
        second_reader.write_case(files, folder)
        given = case.input.encode()
        mine = single(case.words, files, World(given))
        theirs = answer_of(program, case.words, folder, given)
        kind = re.sub(r"-?\d+", "N", mine[1])
        counts[kind] = counts.get(kind, 0) + 1
        if mine == theirs:
            shutil.rmtree(folder)
            continue
        differences += 1
        keep(folder, kept, case.title, [("meaning", mine), ("program", theirs)])
    report(counts, differences)
    return differences


def report(counts, differences):
    print(f"{sum(counts.values())} cases, {differences} differences")
    for kind, count in sorted(counts.items(), key=lambda item: -item[1]):
        print(f"  {count:7} {kind}")


SHIM = """
#undef main
int main() { long v = %s; fflush(stdout); fprintf(stderr, "exit %%ld", v); return 0; }
"""
FLAGS = ["-std=gnu11", "-w", "-fwrapv", "-fsigned-char", "-fno-strict-aliasing",
         "-ftrivial-auto-var-init=zero"]


def for_gcc(text):
    """A program's text for gcc: its functions are declared before, and operations are macros."""
    decls = parsed(0, text.encode())
    heads = ["#include <stdio.h>", "#define main program_main", "#define __putc(c) putchar((int)(c))",
             "#define __getc() ((long)getchar())", "#define __entry", "#define __shared",
             "#define __gate(f, ...) f(__VA_ARGS__)"]
    heads += [f"struct {d['name']};" for d in decls if d["kind"] == "struct"]
    for d in decls:
        if d["kind"] == "function":
            parameters = ", ".join(spelled(ty) for _, ty, _ in d["params"]) or "void"
            heads.append(f"{spelled(d['result'], d['name'])}({parameters});")
    result = next(d["result"] for d in decls if d["name"] == "main")
    value = "(program_main(), 0L)" if result == VOID else "(long)program_main()"
    return "\n".join(heads) + "\n" + text + SHIM % value


def gcc_answer(text, folder, given, level):
    """The output and the exit value of gcc's program."""
    source, binary = os.path.join(folder, "gcc.c"), os.path.join(folder, "gcc.out")
    with open(source, "w", encoding="utf-8") as file:
        file.write(for_gcc(text))
    subprocess.run(["gcc", *FLAGS, level, "-o", binary, source], check=True)
    output, line, _ = answer_of(binary, [], folder, given)
    return output, line


def compare_gcc(seeds, kept):
    """Random programs that C defines, by this meaning and by gcc's program."""
    counts, differences = {}, 0
    for seed in seeds:
        text = Writer(seed, for_gcc=True).text()
        files = {"c.toml": ONE.encode(), "a.c": text.encode()}
        output, line, _ = single(["single", "c.toml", "--steps", "1000000"], files, World())
        mine = output, line.split(" in ")[0]
        kind = re.sub(r"-?\d+", "N", mine[1])
        counts[kind] = counts.get(kind, 0) + 1
        if not line.startswith("exit"):
            continue
        folder = tempfile.mkdtemp(prefix="single-")
        theirs = gcc_answer(text, folder, b"", ["-O0", "-O2"][seed % 2])
        if mine == theirs:
            shutil.rmtree(folder)
            continue
        differences += 1
        keep(folder, kept, f"gcc {seed}", [("meaning", mine), ("gcc", theirs)])
    report(counts, differences)
    return differences


def worked():
    """Cases with known answers."""
    def one(text, *words, **given):
        files = {"c.toml": given.pop("config", ONE).encode(), "a.c": text.encode()}
        output, line, status = single(["single", "c.toml", *words], files, World(**given))
        return output.decode("latin-1"), line, status

    yield one("void main() { __putc(72); }"), ("H", "exit 0 in 9 steps", 0)
    yield one("void main() { }"), ("", "exit 0 in 4 steps", 0)
    yield one("void main() { }", "--steps", "4"), ("", "exit 0 in 4 steps", 0)
    yield one("void main() { }", "--steps", "3"), ("", "steps spent: 3", 8)
    yield one("long a[2]; long main() { return a[2]; }"), ("", "broken: undefined", 10)
    recursion = "long r(long n) { if (n == 0) return 0; return r(n - 1); } long main() { return r(%d); }"
    small = "stack_pages = 1\n" + ONE
    yield one(recursion % 61, config=small), ("", "exit 0 in 1307 steps", 0)
    yield one(recursion % 62, config=small), ("", "stack full: thread 0 stack common", 7)
    yield (one("long main() { int a = 1; int b = -1; a = a << 31; return a / b; }"),
           ("", "divide", 9))


def seeds(words):
    first = int(words[1]) if len(words) == 2 else 0
    return range(first, first + int(words[0]))


def main(words):
    sys.setrecursionlimit(10_000)
    if words[:1] == ["answer"] and len(words) >= 3:
        folder = words[1]
        names = [n for n in os.listdir(folder) if os.path.isfile(os.path.join(folder, n))]
        files = {}
        for name in names:
            with open(os.path.join(folder, name), "rb") as file:
                files[name] = file.read()
        output, line, status = single(words[2:], files, World(sys.stdin.buffer.read()))
        sys.stdout.buffer.write(output)
        sys.stdout.flush()
        print(line, file=sys.stderr)
        return status
    if words[:1] == ["cases"] and len(words) == 2:
        with open(words[1], encoding="utf-8") as file:
            for case in cases_of(file.read()):
                sys.stdout.write(case.shown())
        return 0
    if words[:1] == ["make"] and len(words) in (2, 3):
        for seed in seeds(words[1:]):
            sys.stdout.write(written(random_case(seed)))
        return 0
    if words[:1] == ["compare"] and len(words) in (4, 5):
        return 1 if compare(words[1], seeds([words[2], *words[4:]]), words[3]) else 0
    if words[:1] == ["gcc"] and len(words) in (3, 4):
        return 1 if compare_gcc(seeds([words[1], *words[3:]]), words[2]) else 0
    if words == ["self"]:
        wrong = [pair for pair in worked() if pair[0] != pair[1]]
        for pair in wrong:
            print("expected", pair[1], "but", pair[0])
        print("worked cases:", "wrong" if wrong else "right")
        return 1 if wrong else 0
    print(__doc__)
    return 2


if __name__ == "__main__":
    sys.exit(main(sys.argv[1:]))
