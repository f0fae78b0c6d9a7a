#!/usr/bin/env python3
"""A second reader of the C profile and of its placement.

This program reads a configuration and the C sources that it names, and says
what the command `place` must answer on them: the placement table, or the first
refusal, and the exit status.  It was written from the language's description
alone and shares nothing with the build system that it checks: its own lexer,
parser, type rules, rights and layout.  It needs the standard library alone
(Python 3.11 or later, for `tomllib`).

Usage:

    second_reader.py answer FOLDER
        prints what `flexos place place.toml` prints in FOLDER, on standard
        output and standard error, and ends with its status

    second_reader.py make SEED FOLDER
        writes the random case of that number into FOLDER

    second_reader.py compare PROGRAM COUNT KEEP [FIRST]
        runs the random cases FIRST to FIRST + COUNT - 1 through this reader and
        through PROGRAM; each case on which they differ is kept in a folder of
        its own under KEEP, with both answers; ends with status 1 where there
        was a difference

    second_reader.py edges PROGRAM KEEP
        the same with a fixed list of cases at the limits

    second_reader.py self
        answers a few worked cases and compares them with known results
"""

import os
import random
import re
import shutil
import subprocess
import sys
import tempfile
import tomllib

KIB = 1024
MIB = KIB * KIB
SOURCE_LIMIT = MIB
FILE_LIMIT = 16 * MIB
TYPE_LIMIT = 64 * MIB
SECTIONS_LIMIT = 64 * MIB
INITIAL_LIMIT = 8 * MIB
OBJECT_LIMIT = 32_000
FRAME_LIMIT = 65_536
NESTING = 64
PAGE = 4096
FIRST_SECTION = 0x1000_0000
LITERALS = 0x60_0000


class Refused(Exception):
    """The first refusal: the line for standard error, and the status."""

    def __init__(self, line, status=3):
        super().__init__(line)
        self.line = line
        self.status = status


# ---------------------------------------------------------------------------
# Types: ("void",), ("int", name), ("struct", tag), ("ptr", type),
# ("array", element, length)

SIZES = {"char": 1, "uchar": 1, "short": 2, "ushort": 2,
         "int": 4, "uint": 4, "long": 8, "ulong": 8}
VOID = ("void",)
CHAR = ("int", "char")
INT = ("int", "int")
LONG = ("int", "long")
ULONG = ("int", "ulong")
VOID_POINTER = ("ptr", VOID)


def is_int(t):
    return t[0] == "int"


def is_pointer(t):
    return t[0] == "ptr"


def decayed(t):
    return ("ptr", t[1]) if t[0] == "array" else t


def promoted(t):
    return INT if SIZES[t[1]] < 4 else t


def usual(a, b):
    """The common type of two integers (64-bit long, 32-bit int)."""
    order = ["int", "uint", "long", "ulong"]
    return ("int", order[max(order.index(promoted(a)[1]), order.index(promoted(b)[1]))])


# ---------------------------------------------------------------------------
# Lexis

KEYWORDS = set("""char short int long unsigned void struct if else while for break
    continue return sizeof __shared __entry __gate __putc __getc __in __out __spawn
    __switch __self __read""".split())
SPACE = re.compile(rb"[ \t\r\n]+|//[^\n]*")
NAME = re.compile(rb"[A-Za-z_][A-Za-z0-9_]*")
NUMBER = re.compile(rb"(0x[0-9A-Fa-f]+|0|[1-9][0-9]*)([Uu][Ll]?|[Ll])?")
SIGN = re.compile(rb"->|==|!=|<=|>=|<<|>>|&&|\|\||[(){}\[\];,.=<>+\-*/%&|^~!]")
ESCAPES = {ord("n"): 10, ord("t"): 9, ord("r"): 13, ord("0"): 0,
           ord("\\"): 92, ord("'"): 39, ord('"'): 34}
WORD = frozenset(b"ABCDEFGHIJKLMNOPQRSTUVWXYZabcdefghijklmnopqrstuvwxyz0123456789_")
C_NAME = re.compile(r"[A-Za-z_][A-Za-z0-9_]{0,62}\Z")


class NoToken(Exception):
    def __init__(self, at):
        super().__init__(at)
        self.at = at


def number_type(value, hexadecimal, suffix):
    """The first type of the number's list that holds it, or None."""
    suffix = suffix.upper()
    if suffix == b"UL":
        types = ["ulong"]
    elif suffix == b"U":
        types = ["uint", "ulong"]
    elif suffix == b"L":
        types = ["long", "ulong"] if hexadecimal else ["long"]
    else:
        types = ["int", "uint", "long", "ulong"] if hexadecimal else ["int", "long"]
    for name in types:
        bits = 8 * SIZES[name] - (0 if name[0] == "u" else 1)
        if value < 1 << bits:
            return ("int", name)
    return None


def quoted(text, start):
    """The bytes of the quoted token at `start`, and its end."""
    close = text[start]
    out = bytearray()
    at = start + 1
    while True:
        if at >= len(text):
            raise NoToken(start)
        byte = text[at]
        if byte == close:
            return bytes(out), at + 1
        if byte == 92:
            if at + 1 >= len(text) or text[at + 1] not in ESCAPES:
                raise NoToken(start)
            out.append(ESCAPES[text[at + 1]])
            at += 2
        elif 0x20 <= byte <= 0x7E:
            out.append(byte)
            at += 1
        else:
            raise NoToken(start)


def spans(text):
    """Each token as (kind, value, start, end)."""
    at = 0
    while at < len(text):
        space = SPACE.match(text, at)
        if space:
            at = space.end()
            continue
        if text.startswith(b"/*", at):
            close = text.find(b"*/", at + 2)
            if close < 0:
                raise NoToken(at)
            at = close + 2
            continue
        found = NAME.match(text, at)
        if found:
            word = found.group()
            if len(word) > 63:
                raise NoToken(at)
            word = word.decode()
            yield ("key" if word in KEYWORDS else "name", word, at, found.end())
            at = found.end()
            continue
        found = NUMBER.match(text, at)
        if found:
            digits, suffix = found.group(1), found.group(2) or b""
            hexadecimal = digits.startswith(b"0x")
            # A decimal number has no leading zero, so a long one is too great for any type.
            value = int(digits[2:], 16) if hexadecimal else int(digits[:40])
            ty = number_type(value, hexadecimal, suffix)
            if ty is None or (found.end() < len(text) and text[found.end()] in WORD):
                raise NoToken(at)
            yield ("num", (value, ty), at, found.end())
            at = found.end()
            continue
        if text[at] in b"'\"":
            content, end = quoted(text, at)
            if text[at] == 34:
                yield ("text", content, at, end)
            elif len(content) == 1:
                yield ("char", content[0], at, end)
            else:
                raise NoToken(at)
            at = end
            continue
        found = SIGN.match(text, at)
        if not found:
            raise NoToken(at)
        yield ("sign", found.group().decode(), at, found.end())
        at = found.end()


# ---------------------------------------------------------------------------
# Grammar

class NoDeclaration(Exception):
    """The grammar ends here, or nests too deep."""


class Expr:
    """An expression: its operation, its parts and its nesting."""
    __slots__ = ("op", "parts", "nest")

    def __init__(self, op, *parts, nest=1):
        self.op = op
        self.parts = parts
        self.nest = nest


class Stmt:
    """A statement: its form, its parts and its nesting."""
    __slots__ = ("form", "parts", "nest")

    def __init__(self, form, *parts, nest=1):
        self.form = form
        self.parts = parts
        self.nest = nest


LEVELS = [{"||"}, {"&&"}, {"|"}, {"^"}, {"&"}, {"==", "!="}, {"<", ">", "<=", ">="},
          {"<<", ">>"}, {"+", "-"}, {"*", "/", "%"}]
LEVEL = {sign: level for level, signs in enumerate(LEVELS) for sign in signs}
UNARY = {"-": "neg", "~": "not", "!": "lnot", "*": "deref", "&": "addr"}
TYPE_WORDS = {"void", "unsigned", "char", "short", "int", "long", "struct"}
END = ("end", None, 0, 0)


class Parser:
    def __init__(self, tokens):
        self.tokens = tokens
        self.at = 0

    # tokens

    def look(self, ahead=0):
        place = self.at + ahead
        return self.tokens[place] if place < len(self.tokens) else END

    def sees(self, kind, value=None, ahead=0):
        token = self.look(ahead)
        return token[0] == kind and (value is None or token[1] == value)

    def take(self, kind, value=None):
        if not self.sees(kind, value):
            raise NoDeclaration
        self.at += 1
        return self.tokens[self.at - 1][1]

    def may(self, kind, value):
        if self.sees(kind, value):
            self.at += 1
            return True
        return False

    def sign(self, value):
        self.take("sign", value)

    # types

    def type_stands(self):
        return self.look()[0] == "key" and self.look()[1] in TYPE_WORDS

    def base(self):
        if not self.type_stands():
            raise NoDeclaration
        word = self.take("key")
        if word == "void":
            return VOID
        if word == "struct":
            return ("struct", self.take("name"))
        if word == "unsigned":
            for plain in ("char", "short", "int", "long"):
                if self.may("key", plain):
                    return ("int", "u" + plain)
            return ("int", "uint")
        return ("int", word)

    def stars(self):
        """A base with its stars: the type and how many stars."""
        ty, count = self.base(), 0
        while self.may("sign", "*"):
            ty = ("ptr", ty)
            count += 1
        return ty, count

    def dims(self, ty, count):
        lengths = []
        while self.may("sign", "["):
            length = self.take("num")[0]
            if length >= 1 << 32:
                raise NoDeclaration
            lengths.append(length)
            self.sign("]")
        if count + len(lengths) > NESTING:
            raise NoDeclaration
        for length in reversed(lengths):
            ty = ("array", ty, length)
        return ty

    def plain_type(self):
        ty, count = self.stars()
        if count > NESTING:
            raise NoDeclaration
        return ty

    # expressions

    def node(self, op, *parts, over=()):
        nest = 1 + max((e.nest for e in over), default=0)
        if nest > NESTING:
            raise NoDeclaration
        return Expr(op, *parts, nest=nest)

    def expr(self, level=0, depth=0):
        left = self.unary(depth)
        while True:
            token = self.look()
            if token[0] != "sign" or LEVEL.get(token[1], -1) < level:
                return left
            self.at += 1
            right = self.expr(LEVEL[token[1]] + 1, depth)
            left = self.node("bin", token[1], left, right, over=(left, right))

    def unary(self, depth):
        # No part deeper than the limit can belong to a declaration in it.
        if depth > NESTING:
            raise NoDeclaration
        token = self.look()
        if token[0] == "sign" and token[1] in UNARY:
            self.at += 1
            inner = self.unary(depth + 1)
            return self.node(UNARY[token[1]], inner, over=(inner,))
        if token[1] == "(" and self.look(1)[0] == "key" and self.look(1)[1] in TYPE_WORDS:
            self.sign("(")
            ty = self.plain_type()
            self.sign(")")
            inner = self.unary(depth + 1)
            return self.node("cast", ty, inner, over=(inner,))
        if self.may("key", "sizeof"):
            self.sign("(")
            ty = self.dims(*self.stars())
            self.sign(")")
            return self.node("size", ty)
        return self.postfix(depth)

    def postfix(self, depth):
        e = self.primary(depth)
        while True:
            if self.may("sign", "["):
                index = self.expr(0, depth + 1)
                self.sign("]")
                e = self.node("index", e, index, over=(e, index))
            elif self.may("sign", "."):
                e = self.node("member", e, self.take("name"), over=(e,))
            elif self.may("sign", "->"):
                e = self.node("arrow", e, self.take("name"), over=(e,))
            else:
                return e

    def primary(self, depth):
        kind, value = self.look()[:2]
        if kind == "name":
            self.at += 1
            if self.may("sign", "("):
                args = []
                if not self.sees("sign", ")"):
                    args.append(self.expr(0, depth + 1))
                    while self.may("sign", ","):
                        args.append(self.expr(0, depth + 1))
                self.sign(")")
                return self.node("call", value, args, over=args)
            return self.node("var", value)
        if kind == "num":
            self.at += 1
            return self.node("number", value[0], value[1])
        if kind == "char":
            self.at += 1
            return self.node("number", value, INT)
        if kind == "text":
            self.at += 1
            return self.node("text", value)
        if self.may("sign", "("):
            inner = self.expr(0, depth + 1)
            self.sign(")")
            whole = self.node("paren", over=(inner,))
            return Expr(inner.op, *inner.parts, nest=whole.nest)
        if kind == "key":
            return self.special(depth)
        raise NoDeclaration

    def special(self, depth):
        word = self.take("key")
        if word not in ("__gate", "__putc", "__getc", "__in", "__out", "__spawn",
                        "__switch", "__self"):
            raise NoDeclaration
        self.sign("(")
        if word == "__gate":
            name, args = self.take("name"), []
            while self.may("sign", ","):
                args.append(self.expr(0, depth + 1))
            e = self.node("gate", name, args, over=args)
        elif word in ("__putc", "__switch"):
            inner = self.expr(0, depth + 1)
            e = self.node(word[2:], inner, over=(inner,))
        elif word in ("__getc", "__self"):
            e = self.node(word[2:])
        elif word == "__spawn":
            name = self.take("name")
            self.sign(",")
            inner = self.expr(0, depth + 1)
            e = self.node("spawn", name, inner, over=(inner,))
        else:
            device = self.take("num")[0]
            self.sign(",")
            register = self.take("num")[0]
            if device > 15 or register > 511:
                raise NoDeclaration
            if word == "__in":
                e = self.node("in", device, register)
            else:
                self.sign(",")
                inner = self.expr(0, depth + 1)
                e = self.node("out", device, register, inner, over=(inner,))
        self.sign(")")
        return e

    # statements

    def stmt_node(self, form, *parts, over=()):
        nest = 1 + max((s.nest for s in over if s is not None), default=0)
        if nest > NESTING:
            raise NoDeclaration
        return Stmt(form, *parts, nest=nest)

    def block(self, depth):
        self.sign("{")
        body = []
        while not self.may("sign", "}"):
            body.append(self.stmt(depth))
        return body

    def simple(self):
        left = self.expr()
        if self.may("sign", "="):
            return self.stmt_node("assign", left, self.expr())
        return self.stmt_node("eval", left)

    def stmt(self, depth):
        if depth > NESTING:
            raise NoDeclaration
        if self.may("sign", ";"):
            return self.stmt_node("empty")
        if self.sees("sign", "{"):
            body = self.block(depth + 1)
            return self.stmt_node("block", body, over=body)
        if self.sees("key", "__shared") or self.type_stands():
            shared = self.may("key", "__shared")
            ty, count = self.stars()
            name = self.take("name")
            ty = self.dims(ty, count)
            init = self.expr() if self.may("sign", "=") else None
            self.sign(";")
            return self.stmt_node("local", shared, ty, name, init)
        if self.may("key", "if"):
            self.sign("(")
            condition = self.expr()
            self.sign(")")
            then = self.stmt(depth + 1)
            other = self.stmt(depth + 1) if self.may("key", "else") else None
            return self.stmt_node("if", condition, then, other, over=(then, other))
        if self.may("key", "while"):
            self.sign("(")
            condition = self.expr()
            self.sign(")")
            body = self.stmt(depth + 1)
            return self.stmt_node("while", condition, body, over=(body,))
        if self.may("key", "for"):
            self.sign("(")
            first = None if self.sees("sign", ";") else self.simple()
            self.sign(";")
            condition = None if self.sees("sign", ";") else self.expr()
            self.sign(";")
            third = None if self.sees("sign", ")") else self.simple()
            self.sign(")")
            body = self.stmt(depth + 1)
            return self.stmt_node("for", first, condition, third, body,
                                  over=(first, third, body))
        for word in ("break", "continue"):
            if self.may("key", word):
                self.sign(";")
                return self.stmt_node(word)
        if self.may("key", "return"):
            value = None if self.sees("sign", ";") else self.expr()
            self.sign(";")
            return self.stmt_node("return", value)
        s = self.simple()
        self.sign(";")
        return s

    # declarations

    def library_list(self):
        self.sign("(")
        if self.may("sign", "*"):
            names = "*"
        else:
            names = [self.take("name")]
            while self.may("sign", ","):
                names.append(self.take("name"))
        self.sign(")")
        return names

    def declaration(self):
        if (self.sees("key", "struct") and self.sees("name", ahead=1)
                and self.sees("sign", "{", ahead=2)):
            return self.struct()
        if self.may("key", "__entry"):
            return self.function(True, self.plain_type(), self.take("name"))
        shared = self.library_list() if self.may("key", "__shared") else None
        readers = self.library_list() if self.may("key", "__read") else None
        ty, count = self.stars()
        name = self.take("name")
        if shared is None and readers is None and self.sees("sign", "("):
            if count > NESTING:
                raise NoDeclaration
            return self.function(False, ty, name)
        ty = self.dims(ty, count)
        init = self.initialiser() if self.may("sign", "=") else None
        self.sign(";")
        return {"kind": "global", "shared": shared, "readers": readers, "type": ty,
                "name": name, "init": init}

    def initialiser(self):
        minus = self.may("sign", "-")
        kind, value = self.look()[:2]
        if kind == "num":
            self.at += 1
            return -value[0] if minus else value[0]
        if minus or kind not in ("char", "text"):
            raise NoDeclaration
        self.at += 1
        return value

    def struct(self):
        self.take("key", "struct")
        tag = self.take("name")
        self.sign("{")
        members = []
        while True:
            ty, count = self.stars()
            name = self.take("name")
            members.append((self.dims(ty, count), name))
            self.sign(";")
            if self.may("sign", "}"):
                break
        self.sign(";")
        return {"kind": "struct", "name": tag, "members": members}

    def function(self, entry, result, name):
        self.sign("(")
        params = []
        if self.sees("key", "void") and self.sees("sign", ")", ahead=1):
            self.at += 1
        elif not self.sees("sign", ")"):
            params.append(self.parameter())
            while self.may("sign", ","):
                params.append(self.parameter())
        self.sign(")")
        return {"kind": "function", "entry": entry, "result": result, "name": name,
                "params": params, "body": self.block(1)}

    def parameter(self):
        shared = self.may("key", "__shared")
        ty = self.plain_type()
        return (shared, ty, self.take("name"))


def parsed(file, text):
    """The declarations of one file."""
    try:
        tokens = list(spans(text))
    except NoToken as bad:
        raise Refused(f"refused: parse file {file} Byte {bad.at}") from None
    parser = Parser(tokens)
    decls = []
    while parser.at < len(tokens):
        try:
            decls.append(parser.declaration())
        except NoDeclaration:
            raise Refused(f"refused: parse file {file} Syntax {len(decls)}") from None
    return decls


# ---------------------------------------------------------------------------
# Type rules

class Violation(Exception):
    """A rule is violated at the node that is being checked."""


def rule(broken, kind):
    if broken:
        raise Violation(kind)


def inner_expressions(e):
    for part in e.parts:
        if isinstance(part, Expr):
            yield part
        elif isinstance(part, list):
            yield from part


def every_expression(statements):
    """All expressions under some statements, outer ones first, as the text has them."""
    def down(e):
        yield e
        for inner in inner_expressions(e):
            yield from down(inner)

    for s in statements:
        for part in s.parts:
            if isinstance(part, Expr):
                yield from down(part)
            elif isinstance(part, Stmt):
                yield from every_expression([part])
            elif isinstance(part, list):
                yield from every_expression(part)


class Program:
    """A checked program: its declarations with their libraries, and its literals."""

    def __init__(self, decls):
        self.decls = decls                  # (library, declaration)
        self.tags = {}                      # tag -> (number, members)
        self.names = {}                     # name -> declaration
        self.literals = []
        self.layouts = {}
        for number, (library, decl) in enumerate(decls):
            decl["library"] = library
            decl["number"] = number
            if decl["kind"] == "struct":
                self.tags.setdefault(decl["name"], (number, decl["members"]))
            else:
                self.names.setdefault(decl["name"], decl)
        self.globals = [d for _, d in decls if d["kind"] == "global"]
        self.functions = [d for _, d in decls if d["kind"] == "function"]
        self.check()

    # sizes

    def layout(self, t):
        """Size and alignment."""
        if t[0] == "int":
            return SIZES[t[1]], SIZES[t[1]]
        if t[0] == "ptr":
            return 8, 8
        if t[0] == "array":
            size, align = self.layout(t[1])
            return size * t[2], align
        if t[1] not in self.layouts:
            end, greatest = 0, 1
            for ty, _ in self.tags[t[1]][1]:
                size, align = self.layout(ty)
                end = -(-end // align) * align + size
                greatest = max(greatest, align)
            self.layouts[t[1]] = (-(-end // greatest) * greatest, greatest)
        return self.layouts[t[1]]

    def size(self, t):
        return self.layout(t)[0]

    # types

    def earlier(self, tag, here):
        return tag in self.tags and self.tags[tag][0] < here

    def unknown(self, t, here, value=True):
        """Whether a type breaks the rule on unknown types; `value` where an object has it."""
        if t[0] == "array":
            return t[2] == 0 or self.unknown(t[1], here)
        if t[0] == "void":
            return value
        if t[0] == "struct":
            return not self.earlier(t[1], here)
        if t[0] == "ptr":
            while t[0] == "ptr":
                t = t[1]
            return t[0] == "struct" and t[1] not in self.tags
        return False

    def complete(self, t, here):
        if t[0] == "void":
            return False
        if t[0] == "struct":
            return self.earlier(t[1], here)
        if t[0] == "array":
            return self.complete(t[1], here)
        return True

    # all declarations

    def check(self):
        for number, (_, decl) in enumerate(self.decls):
            self.at(number, self.head, decl)
        for function in self.functions:
            self.at(function["number"], Body(self, function).check)
        main = self.names.get("main")
        if (main is None or main["kind"] != "function" or main["params"]
                or main["result"][0] not in ("int", "void")):
            raise Refused("refused: types NoMain 0")

    def at(self, number, work, *parts):
        try:
            work(*parts)
        except Violation as broken:
            raise Refused(f"refused: types {broken} {number}") from None

    def head(self, decl):
        here = decl["number"]
        if decl["kind"] == "struct":
            names = [name for _, name in decl["members"]]
            types = [ty for ty, _ in decl["members"]]
            rule(self.tags[decl["name"]][0] != here or len(set(names)) < len(names), "Twice")
            rule(any(self.unknown(ty, here) for ty in types), "UnknownType")
            rule(self.size(("struct", decl["name"])) > TYPE_LIMIT, "TooLarge")
            return
        rule(self.names[decl["name"]] is not decl, "Twice")
        if decl["kind"] == "global":
            ty = decl["type"]
            rule(self.unknown(ty, here), "UnknownType")
            rule(self.size(ty) > TYPE_LIMIT, "TooLarge")
            rule(not self.initialiser_fits(ty, decl["init"]), "Initialiser")
            return
        names = [name for _, _, name in decl["params"]]
        types = [ty for _, ty, _ in decl["params"]]
        rule(len(set(names)) < len(names), "Twice")
        rule(any(self.unknown(ty, here) or ty[0] == "struct" for ty in types)
             or self.unknown(decl["result"], here, value=False)
             or decl["result"][0] == "struct", "UnknownType")
        rule(len(types) > 6, "TooManyParameters")

    @staticmethod
    def initialiser_fits(ty, init):
        if init is None:
            return True
        if is_int(ty):
            return not isinstance(init, bytes)
        if ty[0] == "array" and ty[1] == CHAR:
            return isinstance(init, bytes) and len(init) + 1 <= ty[2]
        return False

    def initial_length(self, decl):
        """The bytes of a global's initial value up to the last that isn't 0."""
        init = decl["init"]
        if init is None:
            return 0
        if not isinstance(init, bytes):
            size = self.size(decl["type"])
            init = (init % (1 << 8 * size)).to_bytes(size, "little")
        return len(init.rstrip(b"\0"))


class Value:
    """What the rules ask of an expression: type, whether it is an object, the 0, its need."""
    __slots__ = ("ty", "object", "zero", "need")

    def __init__(self, ty, need, object=False, zero=False):
        self.ty = ty
        self.need = need
        self.object = object
        self.zero = zero


class Body:
    """The check of one function's body."""

    def __init__(self, program, function):
        self.program = program
        self.function = function
        self.here = function["number"]
        self.loops = 0
        self.depth = 0
        self.locals = 0
        self.scopes = [{}]
        for _, ty, name in function["params"]:
            self.scopes[0][name] = ty
            self.slot(ty)

    def slot(self, ty):
        self.locals += -(-self.program.size(ty) // 16) * 16 + 16

    def check(self):
        for s in self.function["body"]:
            self.stmt(s)
        depth = self.depth + self.depth % 2
        self.function["frame"] = 16 + self.locals + 8 * depth
        rule(self.function["frame"] > FRAME_LIMIT, "FrameTooLong")

    # agreement

    @staticmethod
    def pointers_agree(a, b):
        return a == b or a == VOID_POINTER or b == VOID_POINTER

    def converts(self, value, to):
        """Whether a value converts to a type as by assignment."""
        ty = decayed(value.ty)
        if is_int(to):
            return is_int(ty)
        if is_pointer(to):
            return value.zero or (is_pointer(ty) and self.pointers_agree(ty, to))
        return ty == to

    # statements

    def needs(self, need):
        self.depth = max(self.depth, need)

    def stmt(self, s):
        getattr(self, "stmt_" + s.form)(*s.parts)

    def stmt_empty(self):
        pass

    def stmt_block(self, body):
        self.scopes.append({})
        for s in body:
            self.stmt(s)
        self.scopes.pop()

    def stmt_local(self, _shared, ty, name, init):
        scope = self.scopes[-1]
        again = name in scope
        scope[name] = ty
        value = None if init is None else self.expr(init)
        rule(again, "Twice")
        rule(self.program.unknown(ty, self.here), "UnknownType")
        rule(self.program.size(ty) > TYPE_LIMIT, "TooLarge")
        self.slot(ty)
        if value is not None:
            self.assignment(Value(ty, 1, object=True), value)

    def assignment(self, left, right):
        rule(right.ty == VOID, "NotInteger")
        rule(not left.object or left.ty[0] == "array", "NotLvalue")
        rule(not self.converts(right, left.ty), "Mismatch")
        self.needs(max(left.need, 1 + right.need))

    def stmt_eval(self, e):
        self.needs(self.expr(e).need)

    def stmt_assign(self, left, right):
        left = self.expr(left)
        self.assignment(left, self.expr(right))

    def condition(self, value):
        rule(decayed(value.ty)[0] not in ("int", "ptr"), "NotInteger")
        self.needs(value.need)

    def stmt_if(self, condition, then, other):
        value = self.expr(condition)
        self.stmt(then)
        if other is not None:
            self.stmt(other)
        self.condition(value)

    def loop(self, body):
        self.loops += 1
        self.stmt(body)
        self.loops -= 1

    def stmt_while(self, condition, body):
        value = self.expr(condition)
        self.loop(body)
        self.condition(value)

    def stmt_for(self, first, condition, third, body):
        if first is not None:
            self.stmt(first)
        value = None if condition is None else self.expr(condition)
        if third is not None:
            self.stmt(third)
        self.loop(body)
        if value is not None:
            self.condition(value)

    def stmt_break(self):
        rule(self.loops == 0, "BreakOutside")

    stmt_continue = stmt_break

    def stmt_return(self, e):
        result = self.function["result"]
        if e is None:
            rule(result != VOID, "ReturnType")
            return
        value = self.expr(e)
        rule(value.ty[0] in ("void", "struct"), "NotInteger")
        rule(result == VOID or not self.converts(value, result), "ReturnType")
        self.needs(value.need)

    # expressions

    def expr(self, e):
        return getattr(self, "expr_" + e.op)(*e.parts)

    def expr_number(self, value, ty):
        return Value(ty, 1, zero=value == 0)

    def expr_text(self, content):
        self.program.literals.append(len(content) + 1)
        return Value(("array", CHAR, len(content) + 1), 1, object=True)

    def find(self, name):
        """A local's type, or a global declaration, or None."""
        for scope in reversed(self.scopes):
            if name in scope:
                return scope[name]
        return self.program.names.get(name)

    def expr_var(self, name):
        found = self.find(name)
        if isinstance(found, dict):
            rule(found["kind"] != "global", "UnknownName")
            found = found["type"]
        rule(found is None, "UnknownName")
        return Value(found, 1, object=True)

    def expr_neg(self, e):
        value = self.expr(e)
        rule(not is_int(value.ty), "NotInteger")
        return Value(promoted(value.ty), value.need)

    expr_not = expr_neg

    def expr_lnot(self, e):
        value = self.expr(e)
        rule(decayed(value.ty)[0] not in ("int", "ptr"), "NotInteger")
        return Value(INT, value.need)

    def pointer(self, ty):
        rule(not is_pointer(ty) or not self.program.complete(ty[1], self.here), "NotPointer")

    def expr_deref(self, e):
        value = self.expr(e)
        ty = decayed(value.ty)
        rule(ty[0] in ("void", "struct"), "NotInteger")
        self.pointer(ty)
        return Value(ty[1], value.need, object=True)

    def expr_addr(self, e):
        value = self.expr(e)
        rule(not value.object, "NotLvalue")
        return Value(("ptr", value.ty), value.need)

    def expr_bin(self, sign, left, right):
        left = self.expr(left)
        right = self.expr(right)
        a, b = decayed(left.ty), decayed(right.ty)
        rule(a[0] in ("void", "struct") or b[0] in ("void", "struct"), "NotInteger")
        need = max(left.need, 1 + right.need)
        if sign in ("&&", "||"):
            return Value(INT, max(left.need, right.need))
        if sign in ("==", "!=", "<", ">", "<=", ">="):
            if is_int(a) and is_int(b):
                return Value(INT, need)
            rule(not (self.converts(right, a) if is_pointer(a) else self.converts(left, b)),
                 "Mismatch")
            return Value(INT, need)
        if is_int(a) and is_int(b):
            return Value(promoted(a) if sign in ("<<", ">>") else usual(a, b), need)
        rule(sign not in ("+", "-"), "NotInteger")
        if sign == "+":
            rule(is_pointer(a) and is_pointer(b), "NotInteger")
            ty = a if is_pointer(a) else b
            self.pointer(ty)
            return Value(ty, need)
        rule(is_int(a), "NotInteger")
        self.pointer(a)
        if is_int(b):
            return Value(a, need)
        self.pointer(b)
        rule(a != b, "Mismatch")
        return Value(LONG, need)

    def expr_cast(self, to, e):
        value = self.expr(e)
        ty = decayed(value.ty)
        rule(self.program.unknown(to, self.here, value=False), "UnknownType")
        rule(to[0] in ("void", "struct") or ty[0] in ("void", "struct"), "NotInteger")
        rule(is_int(to) != is_int(ty), "NotPointer")
        return Value(to, value.need)

    def expr_size(self, ty):
        rule(self.program.unknown(ty, self.here), "UnknownType")
        rule(self.program.size(ty) > TYPE_LIMIT, "TooLarge")
        return Value(ULONG, 1)

    def expr_index(self, base, index):
        base = self.expr(base)
        index = self.expr(index)
        ty = decayed(base.ty)
        rule(ty[0] in ("void", "struct") or not is_int(index.ty), "NotInteger")
        self.pointer(ty)
        return Value(ty[1], max(base.need, 1 + index.need), object=True)

    def member(self, ty, name):
        """The type of a member of a struct."""
        for member, called in self.program.tags[ty[1]][1]:
            if called == name:
                return member
        raise Violation("UnknownName")

    def expr_member(self, e, name):
        value = self.expr(e)
        # The members of a struct that is declared later aren't in reach.
        rule(value.ty[0] != "struct" or not self.program.complete(value.ty, self.here),
             "UnknownName")
        return Value(self.member(value.ty, name), value.need, object=value.object)

    def expr_arrow(self, e, name):
        value = self.expr(e)
        ty = decayed(value.ty)
        rule(ty[0] in ("void", "struct"), "NotInteger")
        self.pointer(ty)
        rule(ty[1][0] != "struct", "UnknownName")
        return Value(self.member(ty[1], name), value.need, object=True)

    def called(self, name, args):
        """The function that a name means, with the arguments' values."""
        values = [self.expr(e) for e in args]
        found = self.find(name)
        rule(not isinstance(found, dict) or found["kind"] != "function", "UnknownName")
        rule(any(v.ty[0] in ("void", "struct") for v in values), "NotInteger")
        need = max([1] + [i + v.need for i, v in enumerate(values)])
        return found, values, need

    def arguments(self, function, values):
        types = [ty for _, ty, _ in function["params"]]
        rule(len(types) != len(values), "Arguments")
        rule(not all(self.converts(v, ty) for v, ty in zip(values, types)), "Arguments")

    def expr_call(self, name, args):
        function, values, need = self.called(name, args)
        self.arguments(function, values)
        rule(function["library"] != self.function["library"], "CrossCall")
        return Value(function["result"], need)

    def expr_gate(self, name, args):
        function, values, need = self.called(name, args)
        self.arguments(function, values)
        rule(not function["entry"], "NotEntry")
        return Value(function["result"], need)

    def expr_spawn(self, name, e):
        function, values, need = self.called(name, [e])
        types = [ty for _, ty, _ in function["params"]]
        rule(function["result"] != LONG or types != [LONG], "Arguments")
        self.arguments(function, values)
        rule(function["library"] != self.function["library"], "CrossCall")
        return Value(LONG, need)

    def expr_getc(self):
        return Value(LONG, 1)

    expr_self = expr_getc

    def expr_in(self, _device, _register):
        return Value(LONG, 1)

    def expr_putc(self, e):
        value = self.expr(e)
        rule(not is_int(value.ty), "NotInteger")
        return Value(VOID, max(1, value.need))

    expr_switch = expr_putc

    def expr_out(self, _device, _register, e):
        return self.expr_putc(e)


# ---------------------------------------------------------------------------
# Configuration

MECHANISMS = ("call", "light", "full", "ept")


def is_number(value):
    return isinstance(value, int) and not isinstance(value, bool)


def strings(value):
    return isinstance(value, list) and all(isinstance(v, str) for v in value)


def numbers(value):
    return isinstance(value, list) and all(is_number(v) for v in value)


def tables(value):
    return isinstance(value, list) and all(isinstance(v, dict) for v in value)


def text_value(value):
    return isinstance(value, str)


FIELDS = {
    "top": ({"mechanism": text_value, "stack_pages": is_number, "scheduler": text_value,
             "library": tables, "compartment": tables},
            ("mechanism", "library", "compartment")),
    "library": ({"name": text_value, "files": strings}, ("name", "files")),
    "compartment": ({"name": text_value, "libraries": strings, "calls": strings,
                     "devices": numbers}, ("name", "libraries")),
}


def config_refused(kind):
    return Refused(f"refused: config {kind}")


def table_form(table, which):
    fields, needed = FIELDS[which]
    if any(key not in fields for key in table):
        raise config_refused("UnknownField")
    if any(key not in table for key in needed):
        raise config_refused("Missing")
    if not all(fields[key](value) for key, value in table.items()):
        raise config_refused("WrongType")


def in_range(*conditions):
    if not all(conditions):
        raise config_refused("OutOfRange")


def c_name(text):
    return C_NAME.match(text) is not None


def twice(values):
    return len(set(values)) < len(values)


def too_wide(value):
    """Whether a document holds a number of more than 64 bits."""
    if isinstance(value, dict):
        return any(too_wide(v) for v in value.values())
    if isinstance(value, list):
        return any(too_wide(v) for v in value)
    return is_number(value) and not -(1 << 63) <= value < 1 << 63


def configuration(text):
    try:
        top = tomllib.loads(text.decode("utf-8-sig"))
    except ValueError:      # not UTF-8, or not accepted
        raise config_refused("NotToml") from None
    if too_wide(top):
        raise config_refused("NotToml")
    table_form(top, "top")
    libraries, compartments = top["library"], top["compartment"]
    in_range(top["mechanism"] in MECHANISMS,
             1 <= top.get("stack_pages", 4) <= 64,
             c_name(top.get("scheduler", "a")),
             1 <= len(compartments) <= (16 if top["mechanism"] == "ept" else 8),
             1 <= len(libraries) <= 64)
    for library in libraries:
        table_form(library, "library")
        in_range(c_name(library["name"]), all(library["files"]))
    for compartment in compartments:
        table_form(compartment, "compartment")
        in_range(c_name(compartment["name"]),
                 all(c_name(name) for name in compartment["libraries"]),
                 all(c_name(name) for name in compartment.get("calls", [])),
                 all(0 <= d <= 15 for d in compartment.get("devices", [])))
    names = [c["name"] for c in compartments]
    files = [file for library in libraries for file in library["files"]]
    in_range(len(files) <= 64, top.get("scheduler", names[0]) in names)
    if (twice([library["name"] for library in libraries]) or twice(names)
            or twice([name for c in compartments for name in c["libraries"]])
            or twice(files)
            or twice([d for c in compartments for d in c.get("devices", [])])):
        raise config_refused("TwoPlaces")
    return top


# ---------------------------------------------------------------------------
# Grants

class Grants:
    """Which compartment has which library and device, after the refusals in their order."""

    def __init__(self, program, config):
        self.libraries = [library["name"] for library in config["library"]]
        self.compartments = config["compartment"]
        self.count = len(self.compartments)
        self.unknown_library(program)
        self.home = []
        for number, name in enumerate(self.libraries):
            homes = [i for i, c in enumerate(self.compartments) if name in c["libraries"]]
            if not homes:
                raise Refused(f"refused: grants NoCompartment {number}")
            self.home.append(homes[0])
        entries = {f["name"] for f in program.functions if f["entry"]}
        if any(name not in entries for c in self.compartments for name in c.get("calls", [])):
            raise Refused("refused: grants UnknownEntry")
        self.devices_owned(program)
        self.gates_granted(program)
        self.threads_scheduled(program, config)

    def unknown_library(self, program):
        named = [name for c in self.compartments for name in c["libraries"]]
        for g in program.globals:
            for names in (g["shared"], g["readers"]):
                if names not in (None, "*"):
                    named += names
        if any(name not in self.libraries for name in named):
            raise Refused("refused: grants UnknownLibrary")

    def devices_owned(self, program):
        owner = [0] * 16
        for i, c in enumerate(self.compartments):
            for device in c.get("devices", []):
                owner[device] = i
        for f in program.functions:
            for e in every_expression(f["body"]):
                if e.op in ("in", "out"):
                    device = e.parts[0]
                elif e.op in ("putc", "getc"):
                    device = 0
                else:
                    continue
                if owner[device] != self.home[f["library"]]:
                    raise Refused(f"refused: grants NotOwner {device}")

    def gates_granted(self, program):
        for number, f in enumerate(program.functions):
            home = self.home[f["library"]]
            calls = self.compartments[home].get("calls")
            if calls is None:
                continue
            for e in every_expression(f["body"]):
                if e.op != "gate" or e.parts[0] in calls:
                    continue
                if self.home[program.names[e.parts[0]]["library"]] != home:
                    raise Refused(f"refused: grants GateNotGranted {number}")

    def threads_scheduled(self, program, config):
        names = [c["name"] for c in self.compartments]
        scheduler = names.index(config.get("scheduler", names[0]))
        for number, f in enumerate(program.functions):
            if self.home[f["library"]] == scheduler:
                continue
            if any(e.op in ("spawn", "switch") for e in every_expression(f["body"])):
                raise Refused(f"refused: grants NotScheduler {number}")

    def pair(self, g):
        """The readers and the writers of a global."""
        def named(names):
            if names is None:
                return frozenset()
            if names == "*":
                return frozenset(range(self.count))
            return frozenset(self.home[self.libraries.index(name)] for name in names)

        writers = named(g["shared"]) | {self.home[g["library"]]}
        return writers | named(g["readers"]), writers


# ---------------------------------------------------------------------------
# Placement

def following(end):
    """Where the object after one that ends at `end` begins."""
    return -(-(end + 16) // 16) * 16


def placement(program, grants, mechanism):
    """The lines of the placement table."""
    everyone = frozenset(range(grants.count))
    pairs = [(frozenset([c]), frozenset([c])) for c in range(grants.count)]
    if (everyone, everyone) not in pairs:
        pairs.append((everyone, everyone))
    members = {pair: [] for pair in pairs}
    for c, pair in enumerate(pairs[:grants.count]):
        members[pair].append((".rt." + grants.compartments[c]["name"], 4096))
    for g in program.globals:
        pair = grants.pair(g)
        if pair not in members:
            pairs.append(pair)
            members[pair] = []
        members[pair].append((g["name"], program.size(g["type"])))
    keyed = mechanism in ("light", "full")
    if keyed and len(pairs) > 14:
        raise Refused(f"refused: place TooManyKeys {len(pairs)}")
    objects = len(program.globals) + len(program.literals)
    if objects > OBJECT_LIMIT:
        raise Refused(f"refused: place TooManyObjects {objects}")
    lines, start, total = [], FIRST_SECTION, 0
    for number, pair in enumerate(pairs):
        end, address = start, start
        for name, size in members[pair]:
            lines.append(f"{address:016x} {2 + number if keyed else 0} {size} {name}\n")
            end = address + size
            address = following(end)
        pages = max(1, -(-(end - start) // PAGE))
        total += pages * PAGE
        start += (pages + 1) * PAGE
    if total > SECTIONS_LIMIT:
        raise Refused(f"refused: place DataTooLong {total}")
    end, address = LITERALS, LITERALS
    for size in program.literals:
        end = address + size
        address = following(end)
    initial = end - LITERALS + sum(program.initial_length(g) for g in program.globals)
    if initial > INITIAL_LIMIT:
        raise Refused(f"refused: place InitialTooLong {initial}")
    return lines


# ---------------------------------------------------------------------------
# The command

def place(files):
    """The answer on files given as a mapping of names to bytes: status, output, errors."""
    def read(name, limit):
        if name not in files:
            raise Refused(f"no file: {name}", status=4)
        if len(files[name]) > limit:
            raise Refused(f"file too long: {name}", status=4)
        return files[name]

    try:
        config = configuration(read("place.toml", FILE_LIMIT))
        sources = [(number, read(name, SOURCE_LIMIT))
                   for number, library in enumerate(config["library"])
                   for name in library["files"]]
        units = [(library, parsed(file, text)) for file, (library, text) in enumerate(sources)]
        program = Program([(library, d) for library, unit in units for d in unit])
        grants = Grants(program, config)
        return 0, "".join(placement(program, grants, config["mechanism"])), ""
    except Refused as refused:
        return refused.status, "", refused.line + "\n"


# ---------------------------------------------------------------------------
# Random cases: valid programs

INTEGERS = [("int", name) for name in SIZES]
SPELLING = {"char": "char", "uchar": "unsigned char", "short": "short",
            "ushort": "unsigned short", "int": "int", "uint": "unsigned",
            "long": "long", "ulong": "unsigned long"}


def spelled(t, name=""):
    """A type around a name, as the grammar has it."""
    after = ""
    while t[0] == "array":
        after += f"[{t[2]}]"
        t = t[1]
    stars = ""
    while t[0] == "ptr":
        stars += "*"
        t = t[1]
    if t[0] == "struct":
        base = "struct " + t[1]
    else:
        base = "void" if t[0] == "void" else SPELLING[t[1]]
    return f"{base} {stars}{name}{after}"


class Maker:
    """A random case: its declarations are planned first, then their bodies."""

    def __init__(self, seed):
        self.r = random.Random(seed)
        r = self.r
        self.mechanism = r.choice(MECHANISMS)
        self.compartments = r.choice([1, 1, 2, 2, 2, 3, 4])
        file_count = r.randint(1, 3)
        library_count = r.randint(1, file_count)
        self.library_of = sorted(range(library_count)) + [
            r.randrange(library_count) for _ in range(file_count - library_count)]
        self.library_of.sort()
        self.libraries = [f"l{i}" for i in range(library_count)]
        self.home = [r.randrange(self.compartments) for _ in self.libraries]
        self.scheduler = self.home[0] if r.random() < 0.8 else r.randrange(self.compartments)
        self.owner = [r.randrange(self.compartments) if r.random() < 0.3 else None
                      for _ in range(16)]
        self.wild = r.random() < 0.4            # some bodies mind no type
        self.careless = r.choice(["devices", "threads", "calls", "grants", "values"]
                                 + [None] * 16)  # what the bodies mind too little
        self.crowded = r.random() < 0.08        # many annotated globals
        if self.crowded:
            self.home = [i % self.compartments for i in range(len(self.home))]
        self.plan()

    def owner_of(self, device):
        return 0 if self.owner[device] is None else self.owner[device]

    # plans

    def plan(self):
        r = self.r
        self.structs, self.globals, self.functions = [], [], []
        self.decls = []
        tags = [f"S{i}" for i in range(r.randint(0, 3))]
        for tag in tags:
            members = [(self.object_type(tags), f"m{i}") for i in range(r.randint(1, 4))]
            self.structs.append({"kind": "struct", "name": tag, "members": members})
        for i in range(r.randint(0, 6)):
            self.globals.append({"kind": "global", "name": f"g{i}",
                                 "type": self.object_type(tags)})
        for i in range(r.randint(1, 5)):
            name = "main" if i == 0 else f"f{i}"
            result = r.choice([LONG, INT, VOID, CHAR, ("int", "ushort")]) if i == 0 \
                else self.passed_type(tags, True)
            params = [] if i == 0 else [
                (r.random() < 0.2, self.passed_type(tags), f"p{k}")
                for k in range(r.choice([0, 1, 1, 2, 3, 6]))]
            self.functions.append({"kind": "function", "name": name, "result": result,
                                   "params": params, "entry": r.random() < 0.4})
        if r.random() < 0.4:
            self.functions.append({"kind": "function", "name": "thread", "result": LONG,
                                   "params": [(False, LONG, "n")], "entry": r.random() < 0.3})
        if self.crowded:
            for i in range(r.randint(10, 60)):
                self.globals.append({"kind": "global", "name": f"many{i}",
                                     "type": r.choice(INTEGERS)})
        others = self.globals + self.functions
        r.shuffle(others)
        late = [s for s in self.structs if r.random() < 0.15
                and not self.by_value(s["name"])]
        self.decls = [s for s in self.structs if s not in late] + others
        for s in late:
            self.decls.insert(r.randint(0, len(self.decls)), s)
        cuts = sorted(r.randint(0, len(self.decls)) for _ in self.library_of[1:])
        bounds = [0] + cuts + [len(self.decls)]
        for number, decl in enumerate(self.decls):
            decl["number"] = number
            decl["file"] = max(k for k in range(len(self.library_of)) if bounds[k] <= number)
            decl["library"] = self.library_of[decl["file"]]

    def by_value(self, tag):
        def inside(t):
            while t[0] == "array":
                t = t[1]
            return t == ("struct", tag)
        return any(inside(g["type"]) for g in self.globals) or any(
            inside(t) for s in self.structs for t, _ in s["members"])

    def object_type(self, tags):
        """A type of an object; structs by value are those already planned."""
        r = self.r
        x = r.random()
        known = [s["name"] for s in self.structs]
        if x < 0.5:
            t = r.choice(INTEGERS)
        elif x < 0.75:
            t = self.pointer_type(tags)
        elif known:
            t = ("struct", r.choice(known))
        else:
            t = LONG
        while r.random() < 0.2:
            t = ("array", t, r.choice([1, 2, 3, 5, 16, 17]))
        return t

    def pointer_type(self, tags):
        r = self.r
        bases = INTEGERS + [LONG, INT, CHAR, VOID] + [("struct", t) for t in tags] * 2
        t = ("ptr", r.choice(bases))
        while r.random() < 0.2:
            t = ("ptr", t)
        return t

    def passed_type(self, tags, result=False):
        r = self.r
        if result and r.random() < 0.2:
            return VOID
        return r.choice(INTEGERS + [LONG] * 4) if r.random() < 0.7 else self.pointer_type(tags)

    # text

    def files(self):
        self.written = [self.text(decl) + "\n" for decl in self.decls]
        return self.joined()

    def joined(self):
        texts = [""] * len(self.library_of)
        for decl, text in zip(self.decls, self.written):
            texts[decl["file"]] += text
        return texts

    def filled(self, texts):
        """The texts with one function's frame filled up to its limit, or just past it."""
        r = self.r
        try:
            program = Program([(self.library_of[file], decl) for file, text in enumerate(texts)
                               for decl in parsed(file, text.encode())])
        except Refused:
            return texts
        f = r.choice(program.functions)
        size = FRAME_LIMIT - f["frame"] - 16 + r.choice([0, 0, -15, 1, 16])
        if size < 1:
            return texts
        at = f["number"]
        self.written[at] = self.written[at].replace("{\n", f"{{\nchar filler[{size}];\n", 1)
        return self.joined()

    def annotation(self, word):
        r = self.r
        if r.random() < 0.3:
            return f"{word}(*) "
        names = [r.choice(self.libraries) for _ in range(r.randint(1, 3))]
        return f"{word}({', '.join(names)}) "

    def text(self, decl):
        r = self.r
        if decl["kind"] == "struct":
            members = " ".join(spelled(t, n) + ";" for t, n in decl["members"])
            return f"struct {decl['name']} {{ {members} }};"
        if decl["kind"] == "global":
            often = 0.6 if self.crowded else 0.3
            out = self.annotation("__shared") if r.random() < often else ""
            out += self.annotation("__read") if r.random() < often else ""
            return out + spelled(decl["type"], decl["name"]) + self.global_value(decl["type"]) + ";"
        params = ", ".join(("__shared " if s else "") + spelled(t, n)
                           for s, t, n in decl["params"]) or r.choice(["", "void"])
        head = ("__entry " if decl["entry"] else "") + spelled(decl["result"], decl["name"])
        return f"{head}({params}) {{\n{self.body(decl)}}}"

    def global_value(self, t):
        r = self.r
        if r.random() < 0.5:
            return ""
        if self.careless == "values" and r.random() < 0.3:
            return r.choice([" = 0", " = 'a'", ' = ""', ' = "abcdef"', " = -3"])
        if is_int(t):
            return r.choice([" = 1", " = -1", " = 0", " = 0x80000000", " = 'a'", " = '\\0'",
                             " = 255", " = 256", " = 65536", " = -0xFFFFFFFFFFFFFFFFUL"])
        if t[0] == "array" and t[1] == CHAR:
            return ' = "' + "".join(r.choice(["a", "\\0", " ", "\\n", "'"])
                                    for _ in range(r.randint(0, t[2] - 1))) + '"'
        return ""

    def body(self, decl):
        r = self.r
        self.f = decl
        self.scopes = [{n: t for _, t, n in decl["params"]}]
        self.fresh = 0
        self.loops = 0
        if self.wild and r.random() < 0.6:
            self.declare_some()
            return self.pending + self.wild_statements()
        return self.statements(r.randint(0, 6), 0) + self.last()

    def last(self):
        result = self.f["result"]
        if self.r.random() < 0.3:
            return ""
        return "return;\n" if result == VOID else f"return {self.value(result, 2)};\n"

    def complete(self, t):
        if t[0] == "array":
            return self.complete(t[1])
        if t[0] == "struct":
            return any(s["name"] == t[1] and s["number"] < self.f["number"] for s in self.structs)
        return t != VOID

    def local_type(self):
        tags = [s["name"] for s in self.structs]
        for _ in range(20):
            t = self.object_type(tags)
            if self.complete(t):
                return t
        return LONG

    def declare_some(self):
        self.pending = "".join(self.local(1) for _ in range(self.r.randint(0, 3)))

    def local(self, depth):
        r = self.r
        t = self.local_type()
        if r.random() < 0.2 and self.globals:
            name = r.choice(self.globals)["name"]
        else:
            name = f"v{self.fresh}"
            self.fresh += 1
        if name in self.scopes[-1]:
            return ";\n"
        self.scopes[-1][name] = t
        init = ""
        if t[0] != "array" and r.random() < 0.6:
            init = " = " + self.value(t, depth)
        shared = "__shared " if r.random() < 0.2 else ""
        return shared + spelled(t, name) + init + ";\n"

    def statements(self, count, depth):
        return "".join(self.statement(depth) for _ in range(count))

    def inner(self, depth):
        if self.r.random() < 0.3:
            return self.statement(depth + 1)
        return "{\n" + self.scoped(depth) + "}\n"

    def scoped(self, depth):
        self.scopes.append({})
        out = self.statements(self.r.randint(0, 3), depth + 1)
        self.scopes.pop()
        return out

    def statement(self, depth):
        r = self.r
        x = r.random()
        if x < 0.25:
            return self.local(2)
        if x < 0.5 or depth > 3:
            return self.simple() + ";\n"
        if x < 0.6:
            return f"if ({self.test()}) {self.inner(depth)}" + (
                f"else {self.inner(depth)}" if r.random() < 0.4 else "")
        if x < 0.68:
            return f"while ({self.test()}) {self.looped(depth)}"
        if x < 0.76:
            parts = [self.simple() if r.random() < 0.7 else "",
                     self.test() if r.random() < 0.7 else "",
                     self.simple() if r.random() < 0.7 else ""]
            return f"for ({'; '.join(parts)}) {self.looped(depth)}"
        if x < 0.82:
            return "{\n" + self.scoped(depth) + "}\n"
        if x < 0.87 and self.loops:
            return r.choice(["break;\n", "continue;\n"])
        if x < 0.9:
            return self.last() or ";\n"
        return self.effect() + ";\n"

    def looped(self, depth):
        self.loops += 1
        out = self.inner(depth)
        self.loops -= 1
        return out

    def test(self):
        if self.r.random() < 0.2:
            return self.value(self.pointer_type([s["name"] for s in self.structs]), 2)
        return self.value(self.r.choice(INTEGERS), 2)

    def simple(self):
        for _ in range(10):
            found = self.lvalue(3)
            if found and found[1][0] != "array":
                return f"{found[0]} = {self.value(found[1], 3)}"
        return self.value(LONG, 2)

    def compartment(self):
        return self.home[self.f["library"]]

    def device(self):
        devices = [d for d in range(16)
                   if self.careless == "devices" or self.owner_of(d) == self.compartment()]
        return self.r.choice(devices) if devices else None

    def effect(self):
        r = self.r
        forms = [self.value(LONG, 3)]
        device = self.device()
        if device is not None:
            forms.append(f"__out({device}, {r.choice([0, 1, 511, '0x1F'])}, {self.value(LONG, 2)})")
        if self.careless == "devices" or self.owner_of(0) == self.compartment():
            forms.append(f"__putc({self.value(INT, 2)})")
        if self.careless == "threads" or self.compartment() == self.scheduler:
            forms.append(f"__switch({self.value(LONG, 2)})")
        calls = [f for f in self.functions if f["result"] == VOID]
        for f in calls:
            call = self.call(f, 2)
            if call:
                forms.append(call)
        return r.choice(forms)

    def hidden(self, name):
        return any(name in scope for scope in self.scopes)

    def call(self, f, depth):
        if self.hidden(f["name"]):
            return None
        args = [self.value(t, depth - 1) for _, t, _ in f["params"]]
        entry = f["entry"] or (self.careless == "calls" and self.r.random() < 0.1)
        if entry and self.r.random() < 0.6:
            return f"__gate({', '.join([f['name']] + args)})"
        if f["library"] != self.f["library"] and not (
                self.careless == "calls" and self.r.random() < 0.1):
            return None
        return f"{f['name']}({', '.join(args)})"

    # expressions

    def variables(self):
        seen = {}
        for g in self.globals:
            seen[g["name"]] = g["type"]
        for scope in self.scopes:
            seen.update(scope)
        return list(seen.items())

    def lvalue(self, depth):
        """A walk from a variable to an object: its text and type, or None."""
        r = self.r
        variables = self.variables()
        if not variables:
            return None
        text, t = r.choice(variables)
        while r.random() < 0.6:
            if t[0] == "array":
                text, t = f"{text}[{self.value(r.choice(INTEGERS), depth - 1)}]", t[1]
            elif t[0] == "ptr" and self.complete(t[1]):
                if t[1][0] == "struct" and r.random() < 0.7:
                    member = r.choice(self.members(t[1]))
                    text, t = f"{text}->{member[1]}", member[0]
                elif r.random() < 0.5:
                    text, t = f"(*{text})", t[1]
                else:
                    text, t = f"{text}[{self.value(r.choice(INTEGERS), depth - 1)}]", t[1]
            elif t[0] == "struct" and self.complete(t):
                member = r.choice(self.members(t))
                text, t = f"{text}.{member[1]}", member[0]
            else:
                break
        return text, t

    def members(self, t):
        return next(s["members"] for s in self.structs if s["name"] == t[1])

    def value(self, t, depth):
        """An expression that converts to a type."""
        if is_int(t):
            return self.integer(depth)
        if is_pointer(t):
            return self.pointer(t, depth)
        for _ in range(30):
            found = self.lvalue(2)
            if found and found[1] == t:
                return found[0]
        name = f"w{self.fresh}"
        return f"*(({spelled(('ptr', t))}) (void *) \"{name}\")"

    def number(self):
        r = self.r
        value = r.choice([0, 1, 2, 3, 7, 10, 255, 256, 65535, 2147483647, 2147483648,
                          4294967295, 4294967296, 9223372036854775807])
        if r.random() < 0.3:
            return hex(value) + r.choice(["", "", "U", "l", "uL"])
        return str(value) + r.choice(["", "", "", "U", "L", "Ul"])

    def integer(self, depth):
        r = self.r
        if depth <= 0:
            found = self.lvalue(0) if r.random() < 0.6 else None
            if found and is_int(found[1]):
                return found[0]
            return r.choice([self.number(), self.number(), "'a'", "'\\0'", "'\"'"])
        x = r.random()
        if x < 0.2:
            return self.integer(0)
        if x < 0.3:
            return r.choice("-~!") + self.atom(self.integer(depth - 1))
        if x < 0.5:
            sign = r.choice(["||", "&&", "|", "^", "&", "==", "!=", "<", ">", "<=", ">=",
                             "<<", ">>", "+", "-", "*", "/", "%"])
            return f"{self.atom(self.integer(depth - 1))} {sign} {self.atom(self.integer(depth - 1))}"
        if x < 0.56:
            t = self.pointer_type([s["name"] for s in self.structs])
            sign = r.choice(["==", "!=", "<", ">", "<=", ">=", "&&", "||"])
            return (f"{self.atom(self.pointer(t, depth - 1))} {sign} "
                    f"{self.atom(self.pointer(t, depth - 1, True))}")
        if x < 0.6:
            t = ("ptr", self.local_type())
            while t[1][0] == "array":
                t = ("ptr", t[1][1])
            return (f"({self.atom(self.pointer(t, depth - 1, True))} - "
                    f"{self.atom(self.pointer(t, depth - 1, True))})")
        if x < 0.66:
            return f"({spelled(r.choice(INTEGERS))}) {self.atom(self.integer(depth - 1))}"
        if x < 0.7:
            return f"sizeof({spelled(self.local_type())})"
        if x < 0.86:
            calls = [f for f in self.functions if is_int(f["result"])]
            call = self.call(r.choice(calls), depth) if calls else None
            return call or self.integer(0)
        return self.special(depth)

    def special(self, depth):
        r = self.r
        forms = ["__self()", f"!{self.atom(self.pointer(('ptr', LONG), depth - 1))}"]
        device = self.device()
        if device is not None:
            forms.append(f"__in({device}, {r.randrange(512)})")
        if self.careless == "devices" or self.owner_of(0) == self.compartment():
            forms.append("__getc()")
        if self.careless == "threads" or self.compartment() == self.scheduler:
            for f in self.functions:
                if (f["name"] == "thread" and f["library"] == self.f["library"]
                        and not self.hidden("thread")):
                    forms.append(f"__spawn(thread, {self.integer(depth - 1)})")
        return r.choice(forms)

    @staticmethod
    def atom(text):
        return text if re.fullmatch(r"\w+|'(?:[^'\\]|\\.)'", text) else f"({text})"

    def pointer(self, t, depth, exact=False):
        """A pointer of a type; `exact` where no other type will do."""
        r = self.r
        x = r.random()
        if x < 0.15 and not exact:
            return r.choice(["0", "0", "0x0", "'\\0'", "(0)", "0UL"])
        if x < 0.25 and t == ("ptr", CHAR):
            return r.choice(['"abc"', '""', '"a\\0b"', '"\\\\"'])
        for _ in range(12):
            found = self.lvalue(min(depth, 1))
            if not found:
                break
            if decayed(found[1]) == t:
                text = found[0]
                if depth > 0 and r.random() < 0.4 and self.complete(t[1]):
                    sign = r.choice("+-")
                    return f"{text} {sign} {self.atom(self.integer(depth - 1))}"
                return text
            if found[1] == t[1]:
                return f"&{found[0]}"
            if not exact and t == VOID_POINTER:
                return f"&{found[0]}"
        calls = [f for f in self.functions if f["result"] == t]
        if calls and depth > 0:
            call = self.call(r.choice(calls), depth)
            if call:
                return call
        found = self.lvalue(0)
        if found:
            text = found[0] if is_pointer(found[1]) else f"&{found[0]}"
            return f"({spelled(t)}) {text}"
        return f"({spelled(t)}) \"x\""

    # bodies that mind no type

    def wild_statements(self):
        r = self.r
        out = ""
        for _ in range(r.randint(1, 2)):
            out += self.wild_statement(0)
        return out

    def wild_type(self, dims=True):
        r = self.r
        t = r.choice(INTEGERS + [VOID] * 2 + [("struct", x) for x in ("S0", "S1", "S2", "S9")])
        while r.random() < 0.45:
            t = ("ptr", t)
        if dims:
            while r.random() < 0.15:
                t = ("array", t, r.choice([0, 1, 2, 7, 67108863, 67108864, 67108865]))
        return t

    def wild_statement(self, depth):
        r = self.r
        x = r.random()
        e = self.wild_expr
        if x < 0.2:
            name = r.choice(["v0", "v1", "u0", "u1", "p0", "g0", "f1"])
            shared = "__shared " if r.random() < 0.1 else ""
            init = f" = {e(2)}" if r.random() < 0.6 else ""
            return f"{shared}{spelled(self.wild_type(), name)}{init};\n"
        if x < 0.45:
            return f"{e(3)} = {e(2)};\n"
        if x < 0.6:
            return f"{e(3)};\n"
        if x < 0.7:
            return r.choice([f"return {e(2)};\n", f"return {e(2)};\n", "return;\n"])
        if x < 0.74:
            return r.choice(["break;\n", "continue;\n", ";\n"])
        if depth > 2:
            return f"{e(1)};\n"
        inner = self.wild_statement(depth + 1)
        return r.choice([f"if ({e(1)}) {inner}", f"if ({e(1)}) {inner} else break;\n",
                         f"while ({e(1)}) {inner}", f"{{ {inner} }}\n",
                         f"for ({e(1)} = {e(1)}; {e(1)}; {e(1)}) {inner}"])

    def wild_name(self):
        r = self.r
        names = [n for n, _ in self.variables()] * 3 + [f["name"] for f in self.functions]
        return r.choice(names + ["nothing", "g0", "f1"])

    def wild_function(self):
        r = self.r
        names = [f["name"] for f in self.functions] * 3
        return r.choice(names + ["nothing", self.wild_name()])

    def wild_expr(self, depth):
        r = self.r
        if depth <= 0:
            return r.choice([self.wild_name(), self.wild_name(), self.wild_name(), "0", "1",
                             "'\\0'", '"s"'])
        e = lambda: self.atom(self.wild_expr(depth - 1))
        x = r.randrange(20)
        if x < 3:
            return self.wild_expr(0)
        if x < 7:
            sign = r.choice(["||", "&&", "|", "^", "&", "==", "!=", "<", ">", "<=", ">=",
                             "<<", ">>", "+", "-", "+", "-", "==", "*", "/", "%"])
            return f"{e()} {sign} {e()}"
        if x < 8:
            return f"{r.choice('-~!')}{e()}"
        if x < 10:
            return f"{r.choice('*&')}{e()}"
        if x < 12:
            return f"({spelled(self.wild_type(False))}) {e()}"
        if x < 13:
            return f"sizeof({spelled(self.wild_type())})"
        if x < 14:
            return f"{e()}[{e()}]"
        if x < 15:
            return f"{e()}.m{r.randrange(3)}"
        if x < 16:
            return f"{e()}->m{r.randrange(3)}"
        if x < 18:
            name = self.wild_function()
            known = [f for f in self.functions if f["name"] == name]
            count = len(known[0]["params"]) if known and r.random() < 0.8 else r.randrange(3)
            args = [self.wild_expr(depth - 1) for _ in range(count)]
            if r.random() < 0.4:
                return f"__gate({', '.join([name] + args)})"
            return f"{name}({', '.join(args)})"
        if x < 19:
            return r.choice([f"__putc({e()})", f"__switch({e()})", "__getc()", "__self()",
                             f"__in({r.randrange(17)}, 0)", f"__out({r.randrange(16)}, 5, {e()})"])
        return f"__spawn({r.choice(['thread', self.wild_function()])}, {e()})"

    # configuration

    def config(self):
        r = self.r
        lines = [f'mechanism = "{self.mechanism}"']
        if r.random() < 0.3:
            lines.append(f"stack_pages = {r.randint(1, 64)}")
        if self.scheduler != 0 or r.random() < 0.2:
            lines.append(f'scheduler = "c{self.scheduler}"')
        for number, name in enumerate(self.libraries):
            files = [f'"s{k}.c"' for k, library in enumerate(self.library_of) if library == number]
            lines += ["[[library]]", f'name = "{name}"', f"files = [{', '.join(files)}]"]
        entries = [f["name"] for f in self.functions if f["entry"]]
        for c in range(self.compartments):
            libraries = [f'"{name}"' for name, home in zip(self.libraries, self.home) if home == c]
            lines += ["[[compartment]]", f'name = "c{c}"', f"libraries = [{', '.join(libraries)}]"]
            devices = [str(d) for d in range(16) if self.owner[d] == c]
            if devices:
                lines.append(f"devices = [{', '.join(devices)}]")
            if r.random() < (0.9 if self.careless == "grants" else 0.15):
                kept = entries if r.random() < 0.7 and self.careless != "grants" else [
                    e for e in entries if r.random() < 0.4]
                lines.append("calls = [" + ", ".join(f'"{name}"' for name in kept) + "]")
        return "\n".join(lines) + "\n"


# ---------------------------------------------------------------------------
# Random cases: mutations

POOL = ["int", "char", "long", "void", "unsigned", "struct", "S0", "*", "&", "(", ")", "{",
        "}", "[", "]", ";", ",", "=", "==", "0", "1", "7", "67108865", "4294967296", "->", ".",
        "return", "break", "continue", "if", "else", "while", "for", "sizeof", "__shared",
        "__read", "__entry", "__gate", "__getc", "__in", "__out", "__spawn", "__switch",
        "__self", "main", "g0", "g1", "f1", "v0", "p0", "\"s\"", "'a'", "$", "'", "\"", "/*",
        "//", "08", "0x", "1LU", "''", "->", "<<", "-"]


def token_list(text):
    """Tokens as text for mutation, white space dropped."""
    return re.findall(r'"(?:\\.|[^"\\\n])*"|\'(?:\\.|[^\'\\\n])*\'|\w+|->|==|!=|<=|>=|<<|>>'
                      r'|&&|\|\||\S', text)


def changed_text(r, text):
    tokens = token_list(text)
    if not tokens:
        return r.choice(POOL)
    at = r.randrange(len(tokens))
    kind = r.randrange(8)
    if kind == 0:
        del tokens[at]
    elif kind == 1:
        tokens.insert(at, tokens[at])
    elif kind == 2:
        other = r.randrange(len(tokens))
        tokens[at], tokens[other] = tokens[other], tokens[at]
    elif kind == 3:
        tokens[at] = r.choice(POOL)
    elif kind == 4:
        tokens.insert(at, r.choice(POOL))
    else:
        same = [i for i, t in enumerate(tokens) if like(t) == like(tokens[at])]
        other = tokens[r.choice(same)]
        words = {"type": ["int", "char", "long", "short", "void"],
                 "sign": ["+", "-", "*", "/", "%", "&&", "||", "==", "<", "<<", "&"],
                 "name": [t for t in tokens if like(t) == "name"],
                 "number": ["0", "1", "2", "16", "511", "512", "65536", "67108864", "67108865"]}
        tokens[at] = r.choice(words.get(like(tokens[at]), [other]))
    return " ".join(tokens)


def like(token):
    if token in ("int", "char", "long", "short", "void"):
        return "type"
    if token in KEYWORDS:
        return "keyword"
    if re.match(r"[A-Za-z_]", token):
        return "name"
    if token[0].isdigit():
        return "number"
    if token in ("+", "-", "*", "/", "%", "&&", "||", "==", "<", ">", "<<", ">>", "&", "|", "^"):
        return "sign"
    return "other"


CONFIG_CHANGES = [
    ("mechanism = ", 'mechanism = "fast" #'), ("mechanism = ", "mechanism = 1 #"),
    ("mechanism = ", "Mechanism = "), ("mechanism = ", ""), ("name = ", "nom = "),
    ("name = ", "name = 5 #"), ("name = ", 'name = "9a" #'), ("name = ", 'name = "" #'),
    ("name = ", 'name = "while" #'), ("files = [", 'files = ["", '),
    ("files = [", 'files = ["s0.c", '), ("files = [", "files = [3, "),
    ("files = [", 'files = ["gone.c", '), ("files = [", "files = [] #"),
    ("libraries = [", "libraries = [] #"), ("libraries = [", 'libraries = ["l0", '),
    ("libraries = [", 'libraries = ["nowhere", '), ("libraries = [", 'libraries = ["a b", '),
    ("libraries = [", "libraries = 1 #"), ("libraries = [", "libraries = [1, "),
    ("libraries = [", "devices = [16]\nlibraries = ["),
    ("libraries = [", "devices = [0, 0]\nlibraries = ["),
    ("libraries = [", "devices = [0]\nlibraries = ["),
    ("libraries = [", "devices = [-1]\nlibraries = ["),
    ("libraries = [", "devices = [1.0]\nlibraries = ["),
    ("libraries = [", 'devices = "0"\nlibraries = ['),
    ("libraries = [", "calls = []\nlibraries = ["),
    ("libraries = [", 'calls = ["main"]\nlibraries = ['),
    ("libraries = [", 'calls = ["f1", "f1"]\nlibraries = ['),
    ("libraries = [", 'calls = ["f1", 2]\nlibraries = ['),
    ("libraries = [", 'calls = ["f-1"]\nlibraries = ['),
    ("libraries = [", "vm = 0\nlibraries = ["), ("[[library]]", "[[libraries]]"),
    ("[[library]]", "[library]"), ("[[compartment]]", "[compartment]"),
    ("[[compartment]]", "[[compartment]]\nextra = 1"), ("mechanism", "stack_pages = 0\nmechanism"),
    ("mechanism", "stack_pages = 65\nmechanism"), ("mechanism", "stack_pages = true\nmechanism"),
    ("mechanism", 'stack_pages = "4"\nmechanism'), ("mechanism", 'scheduler = "c9"\nmechanism'),
    ("mechanism", 'scheduler = "l0"\nmechanism'), ("mechanism", 'scheduler = "c-"\nmechanism'),
    ("mechanism", "scheduler = 1\nmechanism"), ("mechanism", "other = 1\nmechanism"),
    ("mechanism", "library = 3\nmechanism"), ('"', ""), ("]", ""), ("=", "= ="),
    ("mechanism", "compartment = [1]\nmechanism"), ("c1", "c0"), ("l1", "l0"),
    ("mechanism", "stack_pages = 9223372036854775807\nmechanism"),
    ("mechanism", "stack_pages = 0x10\nmechanism"), ("mechanism", "stack_pages = 1_0\nmechanism"),
    ('"call"', "\"\"\"call\"\"\""), ('"full"', "'full'"), ('"ept"', '"e\\u0070t"'),
]


def changed_config(r, text):
    old, new = r.choice(CONFIG_CHANGES)
    places = [m.start() for m in re.finditer(re.escape(old), text)]
    if not places:
        return text
    at = r.choice(places)
    return text[:at] + new + text[at + len(old):]


def changed_lines(r, text):
    """A configuration with a line deleted, doubled or moved."""
    lines = text.splitlines(keepends=True)
    at = r.randrange(len(lines))
    line = lines[at]
    kind = r.randrange(3)
    if kind != 1:
        del lines[at]
    if kind != 0:
        lines.insert(r.randint(0, len(lines)), line)
    return "".join(lines)


def changed_byte(r, text):
    """A text with a byte deleted, changed or added."""
    at = r.randrange(len(text) + 1)
    byte = chr(r.choice([r.randrange(256), r.randrange(32, 127), ord(r.choice("'\"/*\\\n0x_ "))]))
    kind = r.randrange(3)
    return text[:at] + ("" if kind == 0 else byte) + text[at + (0 if kind == 1 else 1):]


def random_case(seed):
    """The files of one random case."""
    maker = Maker(seed)
    r = maker.r
    texts = maker.files()
    config = maker.config()
    x = r.random()
    k = r.randrange(len(texts))
    if x < 0.3:
        for _ in range(r.choice([1, 1, 1, 2])):
            texts[k] = changed_text(r, texts[k])
    elif x < 0.36:
        texts[k] = changed_byte(r, texts[k])
    elif x < 0.48:
        for _ in range(r.choice([1, 1, 2])):
            config = changed_config(r, config)
    elif x < 0.52:
        config = changed_lines(r, config)
    elif x < 0.54:
        config = changed_byte(r, config)
    elif x < 0.7:
        texts = maker.filled(texts)
    files = {f"s{k}.c": text.encode("latin-1") for k, text in enumerate(texts)}
    if r.random() < 0.01:
        del files[r.choice(list(files))]
    files["place.toml"] = config.encode("latin-1")
    return files


# ---------------------------------------------------------------------------
# Cases at the limits

ONE = """mechanism = "call"
[[library]]
name = "a"
files = ["a.c"]
[[compartment]]
name = "a"
libraries = ["a"]
"""


def one(text, config=ONE):
    """A case of one file."""
    text = text.encode() if isinstance(text, str) else text
    return {"place.toml": config.encode(), "a.c": text}


def many(count, mechanism, texts, more=""):
    """A case of some compartments, each with a library and a file of its name."""
    names = [chr(ord("a") + i) for i in range(count)]
    config = f'mechanism = "{mechanism}"\n{more}'
    for name in names:
        config += f'[[library]]\nname = "{name}"\nfiles = ["{name}.c"]\n'
    for name in names:
        config += f'[[compartment]]\nname = "{name}"\nlibraries = ["{name}"]\n'
    files = {f"{name}.c": text.encode() for name, text in zip(names, texts)}
    return {"place.toml": config.encode(), **files}


def edge_cases():
    """Named cases at limits and at places where a rule is easily read another way."""
    body = "long main() {{ {} }}".format
    for n in (62, 63, 64, 65):
        yield f"parens-{n}", one(body("return " + "(" * n + "1" + ")" * n + ";"))
        yield f"unary-{n}", one(body("return " + "- " * n + "1;"))
        yield f"sum-{n}", one(body("return 1" + " + 1" * n + ";"))
        yield f"blocks-{n}", one(body("{" * n + "}" * n))
        yield f"ifs-{n}", one(body("if (1) " * n + ";"))
        yield f"elses-{n}", one(body("if (1) ; else " * n + ";"))
        yield f"fors-{n}", one(body("for (;;) " * n + "break;"))
        yield f"stars-{n}", one("int " + "*" * n + "p; void main() { }")
        yield f"dims-{n}", one("char a" + "[1]" * n + "; void main() { }")
        yield f"castings-{n}", one(body("int " + "*" * n + "p; p = (int " + "*" * n + ") p;"))
        yield f"indexes-{n}", one("int " + "*" * 64 + "p; " + body("return p" + "[0]" * n + " == 0;"))
        yield f"name-{n}", one(f"int {'x' * n}; void main() {{ }}")
        yield f"sizeof-{n}", one(body(f"return sizeof(int {'*' * n});"))
        yield f"calls-{n}", one("long f(long x) { return x; } "
                                + body("return " + "f(" * n + "1" + ")" * n + ";"))
        yield f"addresses-{n}", one(body("long x; return 0 == " + "&" + "*&" * n + "x;"))
    for text in ("2147483647", "2147483648", "9223372036854775807", "9223372036854775808",
                 "9223372036854775808U", "18446744073709551615U", "18446744073709551616U",
                 "9223372036854775808L", "0x8000000000000000L", "0xFFFFFFFFFFFFFFFFL",
                 "0x10000000000000000", "0xFFFFFFFFFFFFFFFF", "00", "0", "01", "0x", "0X1",
                 "0xg", "1LU", "1ul", "1Ul", "1uL", "1UU", "1_", "1a", "0xAl", "1.5", "1e5",
                 "'a'", "'ab'", "''", "'\\q'", "'\\0'", "'\"'", "'''", "'\\''", "'\n'", "'a",
                 "\"a\nb\"", '"a', '"\\x"', '"\'"', '"\\""', '"\t"', '"\x7f"', "'\x80'"):
        yield f"token {text!r}", one(body(f"return {text};").encode("latin-1"))
        yield f"value {text!r}", one(f"long g = {text}; void main() {{ }}".encode("latin-1"))
    for text in ("/*", "/*/", "/**/", "/* /* */", "/* */ */", "//", "// x\r int", "//\\\n$", "#",
                 "\x0b", "\x0c", "\x00", "@", "\\", "`", "?", ":", "/* \x80 \x00 */", "// \xff",
                 ";", "", "  \t\r\n", "int x", "int x;", "int x;int", "}", "int x; /* */"):
        yield f"tail {text!r}", one(("void main() { }\n" + text).encode("latin-1"))
        yield f"file {text!r}", one(text.encode("latin-1"))
    for size in (0, 1, 67108863, 67108864, 67108865, 4294967295, 4294967296):
        yield f"global-{size}", one(f"char a[{size}]; void main() {{ }}")
        yield f"struct-{size}", one(f"struct S {{ char a[{size}]; }}; void main() {{ }}")
        yield f"padded-{size}", one(f"struct S {{ char a[{size}]; int b; }}; void main() {{ }}")
        yield f"sizeof-{size}", one(body(f"return sizeof(char[{size}]);"))
        yield f"local-{size}", one(body(f"char a[{size}];"))
        yield f"square-{size}", one(f"char a[{size}][{size}]; void main() {{ }}")
    for size in range(65440, 65544, 8):
        yield f"frame-{size}", one(f"void main() {{ char a[{size}]; }}")
        yield f"frame-need-{size}", one(f"long main() {{ char a[{size}]; return 1 + (2 + 3); }}")
    for size in (67100000, 67100624, 67100640, 67100656, 67100672, 67104000, 67104704, 67104720,
                 67104736, 67104752, 67104768):
        for mechanism in ("call", "full"):
            yield (f"data-{mechanism}-{size}",
                   many(1, mechanism, [f"char a[{size}]; void main() {{ }}"]))
            yield (f"data-two-{mechanism}-{size}",
                   many(2, mechanism, [f"char a[{size}]; void main() {{ }}", ""]))
    for count in (31998, 31999, 32000, 32001):
        many_globals = "".join(f"char g{i};" for i in range(count - 1))
        yield f"objects-{count}", one(many_globals + 'void main() { "x"; }')
    yield "source-limit", one("void main() { }" + " " * (SOURCE_LIMIT - 15))
    yield "source-over", one("void main() { }" + " " * (SOURCE_LIMIT - 14))
    for count in (8, 9, 16, 17):
        for mechanism in MECHANISMS:
            yield (f"compartments-{mechanism}-{count}",
                   many(count, mechanism, ["void main() { }"] + [""] * (count - 1)))
    shared = [f"__shared({x}) char s{x}{y};" for x, y in ("bx", "cx", "dx")]
    pairs = ["__shared(b) char ab; __shared(c) char ac; __shared(d) char ad;",
             "__shared(c) char bc; __shared(d) char bd;", "__shared(d) char cd;", ""]
    threes = ["__shared(b, c) char abc; __shared(b, d) char abd; __shared(c, d) char acd;", "", "", ""]
    fourth = "__shared(c, d) char bcd;"
    for mechanism in MECHANISMS:
        texts = [p + t for p, t in zip(pairs, threes)]
        texts[0] = "void main() { }" + texts[0]
        yield f"keys-14-{mechanism}", many(4, mechanism, texts)
        texts[1] += fourth
        yield f"keys-15-{mechanism}", many(4, mechanism, texts)
        yield f"shared-{mechanism}", many(4, mechanism, ["void main() { }" + "".join(shared), "", "", ""])
    long_text = "x" * 1_000_000
    for extra in (388_605, 388_606, 388_607, 388_608, 388_609, 388_610):
        config = 'mechanism = "call"\n[[library]]\nname = "a"\nfiles = ['
        config += ", ".join(f'"{i}.c"' for i in range(9)) + "]\n"
        config += '[[compartment]]\nname = "a"\nlibraries = ["a"]\n'
        files = {f"{i}.c": f'char g{i}[1000001] = "{long_text}";'.encode() for i in range(8)}
        files["8.c"] = (f'char g8[500000] = "{"x" * extra}"; void main() {{ "a"; }}').encode()
        yield f"initial-{extra}", {"place.toml": config.encode(), **files}
    for name, text in SMALL.items():
        yield name, one(text)
    for name, text in TWO.items():
        yield name, many(2, "full", text)
    for name, text in CONFIGS.items():
        yield "config " + name, one("void main() { }", text)


SMALL = {
    # names
    "tag-as-name": "struct x { int x; }; int x; void main() { x = 1; }",
    "tag-twice": "struct x { int a; }; struct x { int b; }; void main() { }",
    "tag-twice-void": "struct x { void a; }; struct x { int b; }; void main() { }",
    "member-twice": "struct x { int a; int a; }; void main() { }",
    "member-twice-void": "struct x { int a; void a; }; void main() { }",
    "function-global": "int f; void f() { } void main() { }",
    "parameter-twice": "void f(int a, long a) { } void main() { }",
    "parameter-local": "void f(int a) { int a; } void main() { }",
    "parameter-inner": "void f(int a) { { int a; } } void main() { }",
    "brace-free": "void main() { if (1) int x; x = 1; }",
    "brace-free-twice": "void main() { int x; if (1) int x; }",
    "brace-free-both": "void main() { if (1) int x; else int x; }",
    "brace-free-loop": "void main() { while (0) int x; x = 2; }",
    "out-of-block": "void main() { { int x; } x = 1; }",
    "own-value": "void main() { int x = x; }",
    "own-value-struct": "struct S { int a; }; void main() { struct S x = x; }",
    "own-value-twice": "void main() { int x; int *x = x + 1; }",
    "own-value-twice-deref": "void main() { int x; int *x = x + *x; }",
    "own-value-unknown": "void main() { struct S x = x.m; }",
    "own-value-void": "void main() { void x = x + 1; }",
    "own-value-void-plain": "void main() { void x = x; }",
    "own-value-zero": "void main() { int x[0] = x.m; }",
    "local-hides-function": "void f() { } void main() { int f; f(); }",
    "local-hides-global": "int f; void main() { long f; f = 3; }",
    "local-hides-gate": "__entry void f() { } void main() { int f; __gate(f); }",
    "global-called": "int f; void main() { f(); }",
    "function-value": "void f() { } void main() { f; }",
    "function-address": "void f() { } void main() { &f; }",
    "function-assigned": "void f() { } void main() { f = 1; }",
    "later-global": "void main() { x = 1; } int x;",
    "main-global": "int main;",
    "main-parameter": "int main(int a) { return a; }",
    "main-pointer": "int *main() { return 0; }",
    "main-char": "unsigned char main() { return 300; }",
    "main-entry": "__entry int main() { return 3; }",
    # types
    "void-global": "void x; void main() { }",
    "void-array": "void x[3]; void main() { }",
    "void-pointer": "void *x; void main() { }",
    "void-parameter": "void f(void x) { } void main() { }",
    "void-first": "void f(void, int x) { } void main() { }",
    "zero-length": "int a[0]; void main() { }",
    "zero-inner": "int a[3][0]; void main() { }",
    "zero-huge": "int a[0][4294967295]; void main() { }",
    "self-struct": "struct S { struct S a; }; void main() { }",
    "self-pointer": "struct S { struct S *a; }; void main() { }",
    "later-pointer": "struct T *g; struct S { struct T *a; }; struct T { int x; }; void main() { }",
    "nowhere-pointer": "struct T *g; void main() { }",
    "nowhere-pointers": "void main() { struct T **g; }",
    "later-value": "struct T g; struct T { int x; }; void main() { }",
    "struct-parameter": "struct T { int x; }; void f(struct T a) { } void main() { }",
    "struct-result": "struct T { int x; }; struct T f() { } void main() { }",
    "seven": "void f(int a, int b, int c, int d, int e, int f, int g) { } void main() { }",
    "seven-void": "void f(int a, int b, int c, int d, int e, int f, void g) { } void main() { }",
    "struct-sizes": "struct S { char a; short b; char c; long d; char e; }; struct S s; "
                    "struct T { char a; struct S s[2]; char b[3]; }; struct T t; int z; "
                    "struct U { char a[3]; }; struct U u[5]; unsigned short w; void main() { }",
    # initial values
    "integer-string": 'int a = "x"; void main() { }',
    "pointer-zero": "int *a = 0; void main() { }",
    "array-number": "char a[3] = 3; void main() { }",
    "array-char": "char a[3] = 'a'; void main() { }",
    "array-exact": 'char a[4] = "abc"; void main() { }',
    "array-over": 'char a[3] = "abc"; void main() { }',
    "array-unsigned": 'unsigned char a[4] = "abc"; void main() { }',
    "array-square": 'char a[4][4] = "abc"; void main() { }',
    "array-int": 'int a[4] = "abc"; void main() { }',
    "array-int-number": "int a[4] = 1; void main() { }",
    "struct-value": "struct S { int a; }; struct S s = 1; void main() { }",
    "minus-char": "int a = -'a'; void main() { }",
    "minus-string": 'char a[3] = -"a"; void main() { }',
    "initial-expression": "int a = 1 + 1; void main() { }",
    "initial-paren": "int a = (1); void main() { }",
    # completeness
    "incomplete-deref": "struct S *p; void main() { *p; } struct S { int a; };",
    "incomplete-address": "struct S *p; void main() { &*p; } struct S { int a; };",
    "incomplete-arrow": "struct S *p; void main() { p->a; } struct S { int a; };",
    "incomplete-arrow-unknown": "struct S *p; void main() { p->zz; } struct S { int a; };",
    "incomplete-sum": "struct S *p; void main() { p + 1; } struct S { int a; };",
    "incomplete-difference": "struct S *p; void main() { p - p; } struct S { int a; };",
    "incomplete-equal": "struct S *p; void main() { p == p; } struct S { int a; };",
    "incomplete-dot": "void main() { s.a = 1; } struct S { int a; }; struct S s;",
    "incomplete-dot-unknown": "void main() { s.zz = 1; } struct S { int a; }; struct S s;",
    "incomplete-assign": "void main() { s = t; } struct S { int a; }; struct S s; struct S t;",
    "incomplete-discard": "void main() { s; } struct S { int a; }; struct S s;",
    "incomplete-index": "void main() { s[0]; } struct S { int a; }; struct S s[2];",
    "incomplete-decay": "void main() { struct S *p = s; } struct S { int a; }; struct S s[2];",
    "incomplete-array-deref": "void main() { *&s; } struct S { int a; }; struct S s[2];",
    "incomplete-local": "void main() { struct S s; } struct S { int a; };",
    "incomplete-sizeof": "void main() { sizeof(struct S); } struct S { int a; };",
    "incomplete-sizeof-pointer": "void main() { sizeof(struct S *); } struct S { int a; };",
    "incomplete-cast": "void main() { (struct S) 1; } struct S { int a; };",
    "incomplete-dot-address": "int *p; void main() { p = &s.a; } struct S { int a; }; struct S s;",
    # expressions
    "sum-pointer-right": "int *p; void main() { p = 1 + p; }",
    "sum-pointers": "int *p; void main() { p + p; }",
    "sum-incomplete-pointers": "void *p; void main() { p + p; }",
    "sum-void-pointer": "void *p; void main() { p + 1; }",
    "difference-integer": "int *p; void main() { 1 - p; }",
    "difference-zero": "int *p; void main() { p - 0; }",
    "difference-other": "int *p; long *q; void main() { p - q; }",
    "difference-void": "int *p; void *q; void main() { p - q; }",
    "difference-voids": "void *q; void main() { q - q; }",
    "difference-arrays": "int a[3]; int b[4]; void main() { &a - &b; }",
    "difference-array-element": "int a[3]; int b[4]; void main() { return; a - b; }",
    "order-zero": "int *p; void main() { p < 0; 0 < p; }",
    "order-void": "int *p; void *q; void main() { p < q; q >= p; }",
    "equal-integer": "int *p; void main() { p == 1; }",
    "equal-left": "int *p; void main() { 1 == p; }",
    "equal-char": "int *p; void main() { p == '\\0'; }",
    "equal-zero-ul": "int *p; void main() { p == 0x0UL; }",
    "equal-paren": "int *p; void main() { p == ((0)); }",
    "equal-minus": "int *p; void main() { p == -0; }",
    "equal-cast": "int *p; void main() { p == (int) 0; }",
    "equal-other": "int *p; long *q; void main() { p == q; }",
    "equal-struct": "struct S { int a; }; struct S s; void main() { s == s; }",
    "equal-struct-pointer": "struct S { int a; }; struct S s; int *p; void main() { p == s; }",
    "equal-void-pointers": "void **p; int **q; void main() { p == q; }",
    "and-struct": "struct S { int a; }; struct S s; void main() { s && 1; }",
    "and-array": "int a[3]; void main() { a && a; !a; if (a) ; }",
    "times-pointer": "int *p; void main() { p * 2; }",
    "shift-pointer": "int *p; void main() { 1 << p; }",
    "minus-pointer": "int *p; void main() { -p; }",
    "not-pointer": "int *p; void main() { !p; }",
    "not-struct": "struct S { int a; }; struct S s; void main() { !s; }",
    "not-void": "void f() { } void main() { !f(); }",
    "deref-integer": "int x; void main() { *x; }",
    "deref-zero": "void main() { *0; }",
    "deref-struct": "struct S { int a; }; struct S s; void main() { *s; }",
    "deref-void": "void f() { } void main() { *f(); }",
    "deref-void-pointer": "void *p; void main() { *p; }",
    "deref-array": "int a[3]; void main() { *a = 3; }",
    "deref-string": 'void main() { *"abc" = 3; }',
    "string-index": 'void main() { "abc"[1] = 3; }',
    "string-assign": 'void main() { "abc" = 3; }',
    "string-address": 'void main() { &"abc"; *&"abc"; }',
    "address-value": "int x; void main() { &(x + 1); }",
    "address-number": "void main() { &1; }",
    "address-void": "void f() { } void main() { &f(); }",
    "address-call": "int f() { } void main() { &f(); }",
    "address-cast": "int x; void main() { &(int) x; }",
    "address-address": "int x; void main() { &&x; }",
    "address-two": "int x; void main() { & &x; }",
    "address-arrow": "struct S { int a; }; struct S *f() { } void main() { int *p = &f()->a; }",
    "cast-void": "int x; void main() { (void) x; }",
    "cast-void-call": "void f() { } void main() { (void) f(); }",
    "cast-struct": "struct S { int a; }; struct S s; void main() { (struct S) s; }",
    "cast-struct-nowhere": "int x; void main() { (struct S) x; }",
    "cast-nowhere-pointer": "int *x; void main() { (struct S *) x; }",
    "cast-from-struct": "struct S { int a; }; struct S s; void main() { (int) s; }",
    "cast-zero": "int *p; void main() { p = (int *) 0; }",
    "cast-integer-pointer": "int *p; void main() { (long) p; }",
    "cast-array": "int a[3]; void main() { (char *) a; }",
    "cast-of-void": "void f() { } void main() { (int) f(); }",
    "index-integer": "int x; void main() { x[0]; }",
    "index-swapped": "int *p; void main() { 0[p]; }",
    "index-pointer": "int *p; void main() { p[p]; }",
    "index-struct": "struct S { int a; }; struct S s; void main() { s[0]; }",
    "index-void": "void *p; void main() { p[0]; }",
    "index-void-bad": "void *p; void main() { p[p]; }",
    "index-of-void": "int *p; void f() { } void main() { p[f()]; }",
    "dot-integer": "int x; void main() { x.a; }",
    "dot-pointer": "struct S { int a; }; struct S *p; void main() { p.a; }",
    "dot-void": "void f() { } void main() { f().a; }",
    "dot-unknown": "struct S { int a; }; struct S s; void main() { s.b; }",
    "dot-array": "struct S { int a; }; struct S s[2]; void main() { s.a; }",
    "arrow-integer": "int x; void main() { x->a; }",
    "arrow-void-pointer": "void *x; void main() { x->a; }",
    "arrow-void": "void f() { } void main() { f()->a; }",
    "arrow-pointer": "int *x; void main() { x->a; }",
    "arrow-pointer-pointer": "struct S { int a; }; struct S **x; void main() { x->a; }",
    "arrow-struct": "struct S { int a; }; struct S s; void main() { s->a; }",
    "arrow-unknown": "struct S { int a; }; struct S *s; void main() { s->b; }",
    "arrow-array": "struct S { int a; }; struct S s[2]; void main() { s->a = 3; }",
    "arrow-array-address": "struct S { int a; }; struct S s[2]; void main() { (&s)->a = 3; }",
    "sizeof-void": "void main() { sizeof(void); }",
    "sizeof-void-pointer": "void main() { sizeof(void *[3]); }",
    "sizeof-void-array": "void main() { sizeof(void[3]); }",
    "sizeof-nowhere": "void main() { sizeof(struct Q); }",
    "sizeof-expression": "int x; void main() { sizeof(x); }",
    "sizeof-index": "void main() { sizeof(int)[0]; }",
    # assignment
    "assign-array": "int a[3]; int b[3]; void main() { a = b; }",
    "assign-array-void": "int a[3]; void f() { } void main() { a = f(); }",
    "assign-value": "int x; void main() { x + 1 = 2; }",
    "assign-call": "int f() { } void main() { f() = 2; }",
    "assign-void-call": "void f() { } void main() { f() = 2; }",
    "assign-void-void": "void f() { } void main() { f() = f(); }",
    "assign-value-mismatch": "int *p; void main() { 1 = p; }",
    "assign-integer-pointer": "int *p; int x; void main() { x = p; }",
    "assign-pointer-integer": "int *p; int x; void main() { p = x; }",
    "assign-pointer-one": "int *p; void main() { p = 1; }",
    "assign-pointer-zero": "int *p; void main() { p = 0; p = '\\0'; p = (0x0L); }",
    "assign-pointer-void": "int *p; void *q; void main() { p = q; q = p; }",
    "assign-pointer-voids": "int **p; void **q; void main() { p = q; }",
    "assign-void-pointers": "int **p; void *q; void main() { p = q; q = p; q = &q; }",
    "assign-struct": "struct S { int a; }; struct S s; struct S t; void main() { s = t; }",
    "assign-struct-other": "struct S { int a; }; struct T { int a; }; struct S s; struct T t; "
                           "void main() { s = t; }",
    "assign-struct-zero": "struct S { int a; }; struct S s; void main() { s = 0; }",
    "assign-integer-struct": "struct S { int a; }; struct S s; int x; void main() { x = s; }",
    "assign-pointer-struct": "struct S { int a; }; struct S s; int *x; void main() { x = s; }",
    "assign-struct-void": "struct S { int a; }; struct S s; void f() { } void main() { s = f(); }",
    "assign-array-pointer": "int a[3]; int (*p); void main() { }",
    "assign-element-pointer": "int a[3][4]; int *p; void main() { p = a[1]; p = a; }",
    "local-array-value": "void main() { int a[2] = 0; }",
    "local-array-text": 'void main() { char a[2] = "a"; }',
    "local-array-void": "void f() { } void main() { char a[2] = f(); }",
    "local-void-value": "void f() { } void main() { int a = f(); }",
    "local-mismatch": "void main() { int *a = 1; }",
    "assign-expression": "int x; int y; void main() { x = y = 1; }",
    # calls
    "call-few": "void f(int a) { } void main() { f(); }",
    "call-many": "void f(int a) { } void main() { f(1, 2); }",
    "call-pointer": "void f(int a) { } int *p; void main() { f(p); }",
    "call-zero": "void f(int *a) { } void main() { f(0); }",
    "call-one": "void f(int *a) { } void main() { f(1); }",
    "call-void": "void g() { } void f(int a) { } void main() { f(g()); }",
    "call-void-many": "void g() { } void f(int a) { } void main() { f(1, g()); }",
    "call-struct": "struct S { int a; }; struct S s; void f(int a) { } void main() { f(s); }",
    "call-struct-pointer": "struct S { int a; }; struct S s; void f(struct S *a) { } void main() { f(s); }",
    "call-unknown-void": "void g() { } void main() { f(g()); }",
    "call-array": "int a[3]; void f(int *p) { } void main() { f(a); }",
    "gate-plain": "void f() { } void main() { __gate(f); }",
    "gate-plain-few": "void f(int a) { } void main() { __gate(f); }",
    "gate-void": "__entry void f(int a) { } void g() { } void main() { __gate(f, g()); }",
    "spawn-void-result": "void f(long x) { } void main() { __spawn(f, 1); }",
    "spawn-int-result": "int f(long x) { } void main() { __spawn(f, 1); }",
    "spawn-int-parameter": "long f(int x) { } void main() { __spawn(f, 1); }",
    "spawn-two": "long f(long x, long y) { } void main() { __spawn(f, 1); }",
    "spawn-pointer": "long f(long x) { } int *p; void main() { __spawn(f, p); }",
    "spawn-void": "long f(long x) { } void g() { } void main() { __spawn(f, g()); }",
    "spawn-struct": "struct S { int a; }; struct S s; long f(long x) { } void main() { __spawn(f, s); }",
    "spawn-unknown": "void main() { __spawn(f, 1); }",
    "spawn-good": "long f(long x) { } void main() { long t = __spawn(f, 'a'); __switch(t); }",
    "putc-pointer": "int *p; void main() { __putc(p); }",
    "putc-void": "void main() { __putc(__putc(1)); }",
    "putc-struct": "struct S { int a; }; struct S s; void main() { __putc(s); }",
    "putc-value": "int x; void main() { x = __putc(1); }",
    "switch-value": "int x; void main() { x = __switch(1); }",
    "in-device": "void main() { __in(16, 0); }",
    "in-register": "void main() { __in(15, 512); }",
    "in-char": "void main() { __in('\\0', 0); }",
    "in-expression": "void main() { __in((0), 0); }",
    "in-suffix": "void main() { __in(0UL, 0x1fU); }",
    # statements
    "return-void-value": "void f() { return 1; } void main() { }",
    "return-void-void": "void g() { } void f() { return g(); } void main() { }",
    "return-none": "int f() { return; } void main() { }",
    "return-pointer": "int *p; int f() { return p; } void main() { }",
    "return-zero": "int *f() { return 0; } void main() { }",
    "return-one": "int *f() { return 1; } void main() { }",
    "return-struct": "struct S { int a; }; struct S s; int f() { return s; } void main() { }",
    "return-struct-void": "struct S { int a; }; struct S s; void f() { return s; } void main() { }",
    "return-pointer-struct": "struct S { int a; }; struct S s; int *f() { return s; } void main() { }",
    "return-array": "int a[3]; int *f() { return a; } void main() { }",
    "break-outside": "void main() { break; }",
    "break-if": "void main() { if (1) break; }",
    "continue-outside": "void main() { { continue; } }",
    "break-after": "void main() { while (1) ; break; }",
    "condition-after-body": "struct S { int a; }; struct S s; void main() { while (s) x; }",
    "condition-after-else": "struct S { int a; }; struct S s; void main() { if (s) ; else x; }",
    "condition-inner-first": "struct S { int a; }; struct S s; void main() { while (s + 1) x; }",
    "condition-break": "struct S { int a; }; struct S s; void main() { if (s) break; }",
    "condition-void": "void f() { } void main() { if (f()) ; }",
    "for-order": "struct S { int a; }; struct S s; void main() { for (; s; x) y = 1; }",
    "for-third": "int *p; void main() { for (; ; 1 = p) y; }",
    "for-condition-third": "struct S { int a; }; struct S s; int *p; void main() { for (; s; 1 = p) ; }",
    "left-before-right": "void main() { x = f(); }",
    "right-before-node": "int a[3]; void main() { a = zz; }",
    "twice-after-value": "void main() { int x; int x = zz; }",
    "body-before-main": "void f() { x; }",
    "head-before-body": "void f() { x; } void g(void a) { }",
    "frame-before-next": "void f() { char a[65536]; } void g() { x; } void main() { }",
    "frame-after-body": "void f() { char a[65536]; x; } void main() { }",
    "discard-struct": "struct S { int a; }; struct S s; void main() { s; }",
    "discard-array": "int a[3]; void main() { a; }",
    "declaration-statement": "void main() { for (int i = 0; ; ) ; }",
    "entry-global": "__entry int x; void main() { }",
    "shared-function": "__shared(*) void f() { } void main() { }",
    "shared-entry": "__shared(*) __entry void f() { } void main() { }",
    "read-before-shared": "__read(*) __shared(*) int x; void main() { }",
    "shared-empty": "__shared() int x; void main() { }",
    "shared-struct": "__shared(*) struct S { int a; }; void main() { }",
    "shared-star-name": "__shared(*, a) int x; void main() { }",
    "shared-local-list": "void main() { __shared(*) int x; }",
    "read-local": "void main() { __read int x; }",
    "struct-empty": "struct S { }; void main() { }",
    "struct-variable": "struct S { int a; } s; void main() { }",
    "unsigned-alone": "unsigned x = 4294967295; unsigned *p; void main() { }",
    "unsigned-unsigned": "unsigned unsigned x; void main() { }",
    "long-long": "long long x; void main() { }",
    "int-unsigned": "int unsigned x; void main() { }",
    "two-names": "int x, y; void main() { }",
    "prototype": "int f(); void main() { }",
    "dims-parameter": "int f(int a[3]) { } void main() { }",
    "dims-empty": "int a[]; void main() { }",
    "else-alone": "void main() { else ; }",
    "if-local": "void main() { if (1) int x; else long y; }",
    "postfix-paren": "struct S { int a; }; struct S s; void main() { (s).a = (s.a); (s.a) = 1; }",
    "function-local": "void main() { int f() { } }",
    "annotation-unknown": "__shared(zz) int x; void main() { }",
    "read-unknown": "__read(a, zz) int x; void main() { }",
}

TWO = {
    "two-call": ["long f() { return 1; } void main() { }", "void g() { f(); }"],
    "two-call-many": ["long f() { return 1; } void main() { }", "void g() { f(1); }"],
    "two-gate": ["__entry long f() { return 1; } void main() { }", "void g() { __gate(f); }"],
    "two-gate-plain": ["long f() { return 1; } void main() { }", "void g() { __gate(f); }"],
    "two-spawn": ["long f(long x) { return 1; } void main() { }", "void g() { __spawn(f, 1); }"],
    "two-spawn-own": ["void main() { }", "long f(long x) { return 1; } void g() { __spawn(f, 1); }"],
    "two-switch": ["void main() { }", "int x; void g() { } void h() { __switch(1); }"],
    "two-self": ["void main() { }", "void g() { __self(); }"],
    "two-putc": ["void main() { }", "void g() { __putc(1); }"],
    "two-devices": ["void main() { }", "void g() { __out(3, 0, __in(2, 0)); }"],
    "two-devices-index": ["int a[3]; void main() { }", "void g() { a[__in(5, 0)] = __in(4, 0); }"],
    "two-devices-args": ["void main() { }", "void f(long a, long b) { } "
                         "void g() { f(__in(7, 0), __in(6, 0)); }"],
    "two-devices-for": ["void main() { }", "void g() { for (__in(1, 0); __in(2, 0); __in(3, 0)) "
                        "__in(4, 0); }"],
    "two-devices-third": ["void main() { }", "void g() { for (; ; __in(3, 0)) __in(4, 0); }"],
    "two-parse": ["void main() { $", "void g() {"],
    "two-parse-order": ["void main() {", "$"],
    "two-heads": ["void main() { x; }", "int y; void z;"],
    "two-number": ["struct S { int a; }; void main() { }", "int a; void g() { zz; }"],
    "two-tag": ["struct S { int a; }; void main() { }", "struct S s; int g() { return s.a; }"],
    "two-tag-later": ["struct S *p; int main() { return p == 0; }", "struct S { int a; }; struct S s;"],
    "two-twice": ["int x; void main() { }", "int y; int x;"],
    "two-shared": ["__shared(b) int x; __read(b) int y; __shared(a) int z; __read(a) int w; "
                   "__shared(b) __read(b) int v; void main() { }",
                   "__read(a) char q = 3; __read(*) char r; __shared(*) __read(a) char s; char t;"],
    "two-no-main": ["", ""],
}

CONFIGS = {
    "empty": "",
    "broken": "mechanism = ",
    "bare": 'mechanism = "call"\n',
    "no-lists": 'mechanism = "call"\nlibrary = []\ncompartment = []\n',
    "inline": 'mechanism = "call"\nlibrary = [{name = "a", files = ["a.c"]}]\n'
              'compartment = [{name = "a", libraries = ["a"]}]\n',
    "inline-element": 'mechanism = "call"\nlibrary = [1]\ncompartment = [{}]\n',
    "inline-element-range": 'mechanism = "fast"\nlibrary = [1]\ncompartment = [{}]\n',
    "top-before-library": 'mechanism = "fast"\nlibrary = [{}]\ncompartment = [{}]\n',
    "library-before-compartment": 'mechanism = "call"\nlibrary = [{name = "9", files = []}]\n'
                                  'compartment = [{other = 1}]\n',
    "missing-before-wrong": 'mechanism = "call"\nlibrary = [{name = 1}]\ncompartment = [{}]\n',
    "unknown-before-missing": 'mechanism = "call"\nlibrary = [{nam = 1}]\ncompartment = [{}]\n',
    "wrong-before-range": ONE.replace('name = "a"\nfiles = ["a.c"]', 'name = "9"\nfiles = [1]'),
    "no-files": ONE.replace('["a.c"]', "[]"),
    "empty-file": ONE.replace('"a.c"', '""'),
    "no-file": ONE.replace('"a.c"', '"b.c"'),
    "no-libraries": ONE.replace('libraries = ["a"]', "libraries = []"),
    "other-library": ONE.replace('libraries = ["a"]', 'libraries = ["b"]'),
    "both-libraries": ONE.replace('libraries = ["a"]', 'libraries = ["a", "b"]'),
    "bad-library": ONE.replace('libraries = ["a"]', 'libraries = ["a b"]'),
    "long-name": ONE.replace('name = "a"\nlib', f'name = "{"n" * 63}"\nlib'),
    "longer-name": ONE.replace('name = "a"\nlib', f'name = "{"n" * 64}"\nlib'),
    "letters": ONE.replace('name = "a"\nlib', 'name = "\u00e9"\nlib'),
    "keyword": ONE.replace('name = "a"\nlib', 'name = "while"\nlib'),
    "name-end": ONE.replace('name = "a"\nlib', 'name = "a\\n"\nlib'),
    "float": "stack_pages = 4.0\n" + ONE,
    "date": "stack_pages = 1979-05-27\n" + ONE,
    "huge": "stack_pages = 99999999999999999999\n" + ONE,
    "minus": "stack_pages = -1\n" + ONE,
    "plus": "stack_pages = +5\n" + ONE,
    "twice-key": "stack_pages = 5\nstack_pages = 5\n" + ONE,
    "binary": "stack_pages = 0b101\n" + ONE,
    "leading-zero": "stack_pages = 05\n" + ONE,
    "quoted-key": "'stack_pages' = 5\n" + ONE,
    "dotted": "stack.pages = 5\n" + ONE,
    "crlf": ONE.replace("\n", "\r\n"),
    "cr": ONE.replace("\n", "\r"),
    "no-newline": ONE.rstrip("\n"),
    "comment": "# \u00e9\n" + ONE,
    "byte-order-mark": "\ufeff" + ONE,
    "scheduler": 'scheduler = "a"\n' + ONE,
    "scheduler-none": 'scheduler = "b"\n' + ONE,
    "scheduler-none-twice": 'scheduler = "b"\n' + ONE + '[[compartment]]\nname = "a"\nlibraries = []\n',
    "scheduler-bad": 'scheduler = "b-"\n' + ONE.replace("name", "nom"),
    "calls-empty": ONE + "calls = []\n",
    "calls-main": ONE + 'calls = ["main"]\n',
    "calls-bad": ONE + 'calls = ["x y"]\n',
    "calls-twice": ONE + 'calls = ["main", "main"]\n',
    "devices-twice": ONE + "devices = [3, 3]\n",
    "devices-range": ONE + "devices = [16]\n",
    "devices-bool": ONE + "devices = [true]\n",
    "library-twice": ONE.replace('libraries = ["a"]', 'libraries = ["a", "a"]'),
    "library-two": ONE + '[[compartment]]\nname = "b"\nlibraries = ["a"]\n',
    "compartment-twice": ONE + '[[compartment]]\nname = "a"\nlibraries = []\n',
    "file-twice": ONE.replace('["a.c"]', '["a.c", "a.c"]'),
    "sixty-four-files": ONE.replace('["a.c"]', str([f"f{i}.c" for i in range(64)]).replace("'", '"')),
    "sixty-five-files": ONE.replace('["a.c"]', str([f"f{i}.c" for i in range(65)]).replace("'", '"')),
    "sixty-five-files-twice": ONE.replace('["a.c"]', str(["f.c"] * 65).replace("'", '"')),
    "sixty-four-libraries": ONE.replace("[[compartment]]", "".join(
        f'[[library]]\nname = "l{i}"\nfiles = []\n' for i in range(63)) + "[[compartment]]"),
    "sixty-five-libraries": ONE.replace("[[compartment]]", "".join(
        f'[[library]]\nname = "l{i}"\nfiles = []\n' for i in range(64)) + "[[compartment]]"),
    "hybrid-vm": ONE + "vm = 0\n",
    "table-library": ONE.replace("[[library]]", "[library]"),
    "array-type": ONE.replace('["a.c"]', '"a.c"'),
    "nested-array": ONE.replace('["a.c"]', '[["a.c"]]'),
}


# ---------------------------------------------------------------------------
# Comparison and the command line

def write_case(files, folder):
    os.makedirs(folder, exist_ok=True)
    for name, content in files.items():
        with open(os.path.join(folder, name), "wb") as file:
            file.write(content)


def program_answer(program, folder):
    try:
        done = subprocess.run([program, "place", "place.toml"], cwd=folder, capture_output=True,
                              timeout=120)
    except subprocess.TimeoutExpired:
        return None, "", "no answer in two minutes"
    return (done.returncode, done.stdout.decode("utf-8", "replace"),
            done.stderr.decode("utf-8", "replace"))


def compare(program, cases, keep):
    """Run each case through both readers; the differences are printed and kept."""
    program = os.path.abspath(program)
    counts, differences = {}, 0
    total = 0
    for name, files in cases:
        total += 1
        if total % 50 == 0:
            print(f"... {total}", file=sys.stderr, flush=True)
        folder = tempfile.mkdtemp(prefix="place-")
        write_case(files, folder)
        mine, theirs = place(files), program_answer(program, folder)
        kind = mine[2].strip().rstrip("0123456789 ") or "placed"
        counts[kind] = counts.get(kind, 0) + 1
        if mine == theirs:
            shutil.rmtree(folder)
            continue
        differences += 1
        kept = os.path.join(keep, re.sub(r"[^\w.-]", "_", name)[:60])
        os.makedirs(keep, exist_ok=True)
        shutil.rmtree(kept, ignore_errors=True)
        shutil.move(folder, kept)
        with open(os.path.join(kept, "answers.txt"), "w", encoding="utf-8") as file:
            for who, answer in (("reader", mine), ("program", theirs)):
                file.write(f"{who}: status {answer[0]}\n{answer[1]}{answer[2]}\n")
        print(f"{name}: reader {mine[0]} {shown(mine)}; program {theirs[0]} {shown(theirs)}",
              flush=True)
    print(f"{total} cases, {differences} differences")
    for kind, count in sorted(counts.items(), key=lambda item: -item[1]):
        print(f"  {count:7} {kind}")
    return differences


def shown(answer):
    return (answer[2] or answer[1])[:160].strip().replace("\n", " | ")


def worked():
    """Cases with known answers."""
    two = many(2, "full", ["int x; long y; void main() { }", "char z; __shared(*) long s;"])
    table = ("0000000010000000 2 4096 .rt.a\n0000000010001010 2 4 x\n0000000010001030 2 8 y\n"
             "0000000010003000 3 4096 .rt.b\n0000000010004010 3 1 z\n0000000010006000 4 8 s\n")
    yield two, (0, table, "")
    edges = dict(edge_cases())
    yield edges["keys-15-full"], (3, "", "refused: place TooManyKeys 15\n")
    yield edges["compartments-full-9"], (3, "", "refused: config OutOfRange\n")
    yield one("void main() { __putc(72) }"), (3, "", "refused: parse file 0 Syntax 0\n")
    yield one("$"), (3, "", "refused: parse file 0 Byte 0\n")
    yield one("void main() { x = 1; }"), (3, "", "refused: types UnknownName 0\n")
    yield one(""), (3, "", "refused: types NoMain 0\n")
    yield one("", "mechanism = "), (3, "", "refused: config NotToml\n")
    yield one("", ONE.replace("call", "fast")), (3, "", "refused: config OutOfRange\n")
    yield (one("void main() { }", ONE.replace('["a"]', "[]")),
           (3, "", "refused: grants NoCompartment 0\n"))
    yield {}, (4, "", "no file: place.toml\n")
    for name in ("keys-14-full", "keys-15-ept"):
        yield edges[name], (0, place(edges[name])[1], "")


def main(words):
    sys.setrecursionlimit(10_000)
    if words[:1] == ["answer"] and len(words) == 2:
        files = {}
        for base, _, names in os.walk(words[1]):
            for name in names:
                path = os.path.join(base, name)
                with open(path, "rb") as file:
                    files[os.path.relpath(path, words[1])] = file.read()
        status, out, err = place(files)
        sys.stdout.write(out)
        sys.stderr.write(err)
        return status
    if words[:1] == ["make"] and len(words) == 3:
        write_case(random_case(int(words[1])), words[2])
        return 0
    if words[:1] == ["compare"] and len(words) in (4, 5):
        first = int(words[4]) if len(words) == 5 else 0
        cases = ((f"case-{seed}", random_case(seed))
                 for seed in range(first, first + int(words[2])))
        return 1 if compare(words[1], cases, words[3]) else 0
    if words[:1] == ["edges"] and len(words) == 3:
        return 1 if compare(words[1], edge_cases(), words[2]) else 0
    if words == ["self"]:
        wrong = [(files, expected) for files, expected in worked() if place(files) != expected]
        for files, expected in wrong:
            print("expected", expected, "but", place(files), "on", files)
        print("worked cases:", "wrong" if wrong else "right")
        return 1 if wrong else 0
    print(__doc__)
    return 2


if __name__ == "__main__":
    sys.exit(main(sys.argv[1:]))
