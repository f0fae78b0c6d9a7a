#!/usr/bin/env python3
"""An interpreter of linear code, and drawn programs by their source and by their code.

The code is what the program of the crate `fx_c_lower_test` prints: a line for each step of each function, its
position, its cost and its op.  What an op does was written from the description of the ops alone; objects, numbers,
pointers, devices and the runs of the source are those of `second_meaning.py` beside it.  It needs the standard
library alone (Python 3.11 or later).

Usage:

    second_lowering.py make COUNT [FIRST]
        prints random programs as fx_c_lower_test reads them

    second_lowering.py compare PROGRAM COUNT [FIRST]
        has PROGRAM print the code of the random programs FIRST to FIRST + COUNT - 1, and compares what the code
        does with what the source does: the same operations at the same costs, and the same end at the same cost.
        Where the source is undefined, the code makes the operations before it.

    second_lowering.py cases FILE
        the same for the programs of FILE, with the code on standard input
"""

import subprocess
import sys
from collections import Counter

from second_meaning import (LONG, Coder, End, Meaning, Run, World, arithmetic, cases_of, compared, copy_cell, difference, is_int,
                            is_pointer, load, moved, random_case, store, undefined, wrapped)
from second_reader import PAGE, VOID, Program, parsed

BUDGET = 60_000
STACK_PAGES = 4
WORD = 1 << 64
VOID_VALUE = object()
SIGNS = {"Add": "+", "Sub": "-", "Mul": "*", "Div": "/", "Rem": "%", "Shl": "<<", "Shr": ">>", "Lt": "<", "Gt": ">",
         "Le": "<=", "Ge": ">=", "Eq": "==", "Ne": "!=", "And": "&", "Xor": "^", "Or": "|"}
INTS = {"Char": "char", "Uchar": "uchar", "Short": "short", "Ushort": "ushort", "Int": "int", "Uint": "uint",
        "Long": "long", "Ulong": "ulong"}


# ---------------------------------------------------------------------------
# Reading code

def term(text, at=0):
    """A word and, in parentheses, terms; and the place behind it."""
    end = at
    while end < len(text) and (text[end].isalnum() or text[end] in "_-"):
        end += 1
    word, parts = text[at:end], []
    if end < len(text) and text[end] == "(":
        end += 1
        while text[end] != ")":
            part, end = term(text, end)
            parts.append(part)
            if text[end] == ",":
                end += 2
        end += 1
    return (word, parts), end


def number_of(t):
    return int(t[0])


def int_type(t):
    return ("int", INTS[t[0]])


def type_of(t):
    word, parts = t
    if word == "Int":
        return int_type(parts[0])
    if word == "Ptr":
        return ("ptr", None)
    raise AssertionError(t)


def code_of(lines):
    """Of each function its steps: a cost and an op."""
    functions = []
    for line in lines:
        if line.startswith("function "):
            functions.append([])
        elif line:
            _, cost, op = line.split(" ", 2)
            functions[-1].append((int(cost), term(op)[0]))
    return functions


# ---------------------------------------------------------------------------
# What ops do, on words: a number, a pair of an object and an offset, 0 for null

def as_number(word, ty):
    if not isinstance(word, int):
        raise undefined("a pointer as a number")
    return wrapped(word, ty)


def as_pointer(word):
    if isinstance(word, int):
        if word:
            raise undefined("a number as a pointer")
        return None
    return word


def word_of(value):
    return 0 if value is None else value


class Ops:
    """The actions of a function's ops."""

    def __init__(self, meaning, types):
        self.meaning, self.types = meaning, types

    def action(self, op):
        word, parts = op
        return getattr(self, "op_" + word.lower())(*parts)

    def right(self, t):
        """What gives the word of a right operand."""
        word, parts = t
        if word == "Pending":
            return lambda m: m.operands.pop()
        if word == "Number":
            value = number_of(parts[0])
            return lambda m: value
        return self.local_value(number_of(parts[0]))

    def local_value(self, n):
        ty = self.types[n]
        return lambda m: word_of(load((m.frame.locals[n], 0), ty))

    @staticmethod
    def push(give):
        return lambda m: m.operands.append(give(m))

    @staticmethod
    def over(f):
        def action(m):
            m.operands[-1] = f(m.operands[-1])
        return action

    @staticmethod
    def over_two(right, f):
        def action(m):
            b = right(m)
            m.operands[-1] = f(m.operands[-1], b)
        return action

    def op_number(self, n):
        value = number_of(n)
        return self.push(lambda m: value)

    def op_localaddr(self, n):
        n = number_of(n)
        return self.push(lambda m: (m.frame.locals[n], 0))

    def op_loadlocal(self, n):
        return self.push(self.local_value(number_of(n)))

    def op_storelocal(self, n):
        n = number_of(n)
        return lambda m: put((m.frame.locals[n], 0), self.types[n], m.operands.pop())

    def op_globaladdr(self, n):
        where = self.meaning.all_globals[number_of(n)]
        return self.push(lambda m: (where, 0))

    def op_literaladdr(self, n):
        where = self.meaning.literals[number_of(n)]
        return self.push(lambda m: (where, 0))

    def op_load(self, t):
        ty = type_of(t)
        return self.over(lambda p: word_of(load(as_pointer(p), ty)))

    def op_store(self, t):
        ty = type_of(t)

        def action(m):
            value = m.operands.pop()
            put(as_pointer(m.operands.pop()), ty, value)
        return action

    def op_copy(self, n):
        size = number_of(n)
        return lambda m: m.copy_bytes(size)

    def op_unary(self, op, t):
        ty = int_type(t)
        f = {"Neg": lambda n: wrapped(-n, ty), "Not": lambda n: wrapped(~n, ty), "Lnot": lambda n: int(n == 0)}[op[0]]
        return self.over(lambda w: f(as_number(w, ty)))

    def op_binary(self, op, t, right):
        ty, sign = int_type(t), SIGNS[op[0]]
        shifts = sign in ("<<", ">>")
        # a shift's count has a type of its own, and only its lowest bits count
        other = LONG if shifts else ty
        return self.over_two(self.right(right), lambda a, b: arithmetic(sign, as_number(a, ty), as_number(b, other), ty))

    def op_ptrcompare(self, op, right):
        sign = SIGNS[op[0]]
        return self.over_two(self.right(right), lambda a, b: compared(sign, as_pointer(a), as_pointer(b)))

    def op_comparejump(self, op, of, right, to):
        sign, right, to = SIGNS[op[0]], self.right(right), number_of(to)
        ty = int_type(of[1][0]) if of[0] == "Integers" else None

        def action(m):
            b = right(m)
            a = m.operands.pop()
            if ty is None:
                holds = compared(sign, as_pointer(a), as_pointer(b))
            else:
                holds = arithmetic(sign, as_number(a, ty), as_number(b, ty), ty)
            if not holds:
                m.at = to
        return action

    def op_convert(self, of, to):
        of, to = int_type(of), int_type(to)
        return self.over(lambda w: wrapped(wrapped(w, of), to) if isinstance(w, int) else w)

    def op_index(self, n, right):
        size = number_of(n)
        ty = LONG
        if right[0] == "Local" and is_int(self.types[number_of(right[1][0])]):
            ty = self.types[number_of(right[1][0])]
        return self.over_two(self.right(right), lambda p, i: moved(as_pointer(p), size * as_number(i, ty)))

    def op_indexleft(self, n):
        size = number_of(n)
        return self.over_two(lambda m: m.operands.pop(), lambda i, p: moved(as_pointer(p), size * as_number(i, LONG)))

    def op_back(self, n):
        size = number_of(n)
        return self.over_two(lambda m: m.operands.pop(), lambda p, i: moved(as_pointer(p), -size * as_number(i, LONG)))

    def op_difference(self, n):
        size = number_of(n)
        return self.over_two(lambda m: m.operands.pop(), lambda p, q: difference(as_pointer(p), as_pointer(q), size))

    def op_offset(self, n):
        distance = number_of(n)
        return self.over(lambda p: moved(as_pointer(p), distance))

    def op_jump(self, to):
        to = number_of(to)

        def action(m):
            m.at = to
        return action

    def op_jumpzero(self, to):
        to = number_of(to)

        def action(m):
            if m.operands.pop() == 0:
                m.at = to
        return action

    def op_call(self, f):
        function = self.meaning.program.functions[number_of(f)]
        count = len(function["params"])

        def action(m):
            given = m.operands[len(m.operands) - count:]
            del m.operands[len(m.operands) - count:]
            m.enter(function, given)
        return action

    op_gate = op_call

    def op_spawn(self, f):
        function = self.meaning.program.functions[number_of(f)]

        def action(m):
            m.operands[-1] = m.spawn(function, m.operands[-1])
        return action

    def op_switch(self):
        def action(m):
            number = as_number(m.operands.pop(), LONG)
            m.operands.append(VOID_VALUE)
            m.switch(number)
        return action

    def op_me(self):
        return self.push(lambda m: m.current)

    def op_devload(self, device, register):
        device, register = number_of(device), number_of(register)
        return self.push(lambda m: m.world.load(device, register))

    def op_devstore(self, device, register):
        device, register = number_of(device), number_of(register)

        def action(m):
            m.world.store(device, register, as_number(m.operands.pop(), LONG) % WORD)
            m.operands.append(VOID_VALUE)
        return action

    def op_getc(self):
        return self.op_devload(("0", []), ("0", []))

    def op_putc(self):
        return self.op_devstore(("0", []), ("0", []))

    def op_drop(self):
        return lambda m: m.operands.pop()

    def op_return(self):
        return lambda m: m.give_back()


def put(pointer, ty, word):
    store(pointer, ty, as_pointer(word) if is_pointer(ty) else as_number(word, ty))


# ---------------------------------------------------------------------------
# Runs of code

class Names(Coder):
    """The types of a function's locals, and its strings in the order of the check."""

    def __init__(self, program, function, meaning):
        self.local_types = []
        self.strings = []
        super().__init__(program, function, meaning)

    def new_local(self, ty):
        self.local_types.append(ty)
        return super().new_local(ty)

    def expr(self, e):
        value = super().expr(e)
        if e.op == "text":
            self.strings.append(e.parts[0])
        return value


class Coded:
    """What a run asks of a function: the sizes of its locals and its steps."""

    def __init__(self, slots, steps):
        self.slots, self.steps = slots, steps


class CodeMeaning(Meaning):
    """The objects of a program, and its code."""

    def __init__(self, program, code):
        self.program = program
        self.globals = {g["name"]: self.new_global(g) for g in program.globals}
        self.all_globals = list(self.globals.values())
        named = [Names(program, f, self) for f in program.functions]
        self.literals = [self.literal(it) for names in named for it in names.strings]
        self.code = {}
        for f, names, steps in zip(program.functions, named, code):
            ops = Ops(self, names.local_types)
            self.code[f["name"]] = Coded(names.slots, [(cost, ops.action(op)) for cost, op in steps])


class CodeRun(Run):
    """A run of code. Each call has a stack of its own, and what has no result leaves a value of no type."""

    def waiting(self):
        """The stacks of the running thread's callers."""
        return vars(self.thread).setdefault("waiting", [])

    def enter(self, function, given):
        values = [as_pointer(v) if is_pointer(ty) else as_number(v, ty)
                  for v, (_, ty, _) in zip(given, function["params"])]
        super().enter(function, values)
        self.waiting().append(self.operands)
        self.operands = self.thread.operands = []

    def take_up(self, number):
        super().take_up(number)
        self.operands = self.thread.operands

    def give_back(self):
        value = self.operands.pop() if self.operands else VOID_VALUE
        result = self.frame.function["result"]
        if len(self.thread.frames) == 1:
            shown = as_number(value, result) if is_int(result) else None
            self.leave(result, shown)
            return
        self.operands = self.thread.operands = self.waiting().pop()
        self.leave(VOID, None)
        self.operands.append(value)

    def copy_bytes(self, size):
        source, target = as_pointer(self.operands.pop()), as_pointer(self.operands.pop())
        for i in range(size):
            if i:
                self.charge(1)
            copy_cell(source, target, i, self.charge)


class Told(World):
    """A world that tells each operation with the cost of the run at it."""

    def __init__(self, given):
        super().__init__(given)
        self.run = None
        self.operations = []

    def load(self, device, register):
        value = super().load(device, register)
        self.operations.append((self.run.cost, device, register, value % WORD))
        return value

    def store(self, device, register, value):
        self.operations.append((self.run.cost, device, register, "stored", value))
        return super().store(device, register, value)


def outcome(kind, meaning, given):
    """The operations with their costs, the end and the cost there."""
    world = Told(given)
    try:
        run = kind(meaning, PAGE * STACK_PAGES, BUDGET, world)
        world.run = run
        run.go()
    except End as end:
        return world.operations, end.line, run.cost
    raise AssertionError


def differs(text, code, given):
    """How the source ends, and why its code does something else, or None."""
    program = Program([(0, d) for d in parsed(0, text.encode())])
    meant, line, cost = outcome(Run, Meaning(program), given)
    done, code_line, code_cost = outcome(CodeRun, CodeMeaning(program, code), given)
    if line.startswith("steps spent"):
        # the last unit is told apart: an op is done at the end of what it costs
        short = min(len(meant), len(done))
        same = meant[:short] == done[:short] and abs(len(meant) - len(done)) <= 1
        return line, None if same else "operations within the budget"
    if line == "broken: undefined":
        return line, None if done[:len(meant)] == meant else "operations before undefined behaviour"
    if meant != done:
        return line, f"operations {meant[-3:]} and {done[-3:]}"
    same = (line, cost) == (code_line, code_cost)
    return line, None if same else f"{line} at {cost}, {code_line} at {code_cost}"


# ---------------------------------------------------------------------------
# Comparison

def compare(cases, printed):
    parts = printed.split("===")[1:]
    if len(parts) != len(cases):
        sys.exit(f"{len(cases)} programs, and the code of {len(parts)}")
    ends, differences = Counter(), 0
    for case, part in zip(cases, parts):
        line, why = differs(case.texts[0], code_of(part.splitlines()[1:]), case.input.encode())
        ends[line.split()[0].rstrip(":")] += 1
        if why:
            differences += 1
            print(f"{case.title}: {why}")
    print(", ".join(f"{count} {end}" for end, count in sorted(ends.items())))
    print(f"{len(cases)} programs, {differences} differences")
    return differences


def main(words):
    if len(words) >= 2 and words[0] in ("make", "compare"):
        counts = [int(it) for it in words[1 if words[0] == "make" else 2:]]
        first = counts[1] if len(counts) > 1 else 0
        cases = [random_case(seed) for seed in range(first, first + counts[0])]
        text = "".join(f"==={case.title}\n{case.texts[0]}" for case in cases)
        if words[0] == "make":
            print(text, end="")
            return 0
        done = subprocess.run([words[1]], input=text, capture_output=True, text=True, check=True)
        return 1 if compare(cases, done.stdout) else 0
    if len(words) == 2 and words[0] == "cases":
        with open(words[1], encoding="utf-8") as file:
            return 1 if compare(cases_of(file.read()), sys.stdin.read()) else 0
    print(__doc__)
    return 2


if __name__ == "__main__":
    sys.exit(main(sys.argv[1:]))
