#!/usr/bin/env python3
"""Writes crates/reading/stdin and stdout: texts, and what the reader must answer for each.

The answers come from a model of the paper's reading, written from the paper and from RFC 8259 alone, not from the definitions. Each tree of an
accepted text is also held against Python's own json, and each text that is refused with 4 must be refused there too, but for lone surrogates.

    tools/reading/make.py          writes both files again (the random part comes from a fixed seed)

JSONTestSuite is fetched with Debian's source package libcpanel-json-xs-perl, which wants a deb-src line for apt-get; JSON_checker's texts are those of
Python's own tests (Debian's package libpython3.11-testsuite).
"""
import json
import os
import pathlib
import random
import re
import subprocess
import sys
import tempfile

BYTES, BRACKETS, NODES, NUMBER = 32768, 64, 4096, 255
NULL, TRUE, FALSE, NUMERAL, TEXT, ARRAY, OBJECT = range(7)
WORDS = {ord("n"): (b"null", NULL), ord("t"): (b"true", TRUE), ord("f"): (b"false", FALSE)}


class Refused(Exception):
    def __init__(self, number):
        super().__init__(number)
        self.number = number


class Reader:
    """Goes byte by byte; where a byte shows two refusals, the lower one is tested first."""

    def __init__(self, text):
        self.text, self.at, self.rows, self.open = text, 0, [], 0

    def byte(self):
        return self.text[self.at] if self.at < len(self.text) else -1

    def space(self):
        while self.byte() in (9, 10, 13, 32):
            self.at += 1

    def node(self, kind, start):
        if len(self.rows) == NODES:
            raise Refused(7)
        self.rows.append([kind, start, None, None])
        return len(self.rows) - 1

    def ends(self, row, end):
        self.rows[row][2:] = [end, len(self.rows)]

    def whole(self):
        self.space()
        self.value()
        self.space()
        if self.at != len(self.text):
            raise Refused(4)
        return self.rows

    def value(self):
        c, start = self.byte(), self.at
        if c in (ord("["), ord("{")):
            if self.open == BRACKETS:
                raise Refused(5)
            row = self.node(ARRAY if c == ord("[") else OBJECT, start)
            self.open += 1
            self.at += 1
            self.held(c == ord("{"), ord("]") if c == ord("[") else ord("}"))
            self.open -= 1
            self.ends(row, self.at)
        elif c in WORDS:
            word, kind = WORDS[c]
            row = self.node(kind, start)
            for b in word:
                if self.byte() != b:
                    raise Refused(4)
                self.at += 1
            self.ends(row, self.at)
        elif c == ord('"'):
            row = self.node(TEXT, start + 1)
            self.string()
            self.ends(row, self.at - 1)
        elif c == ord("-") or 48 <= c <= 57:
            row = self.node(NUMERAL, start)
            self.number()
            self.ends(row, self.at)
        else:
            raise Refused(4)

    def held(self, named, close):
        names = set()
        self.space()
        if self.byte() == close:
            self.at += 1
            return
        while True:
            if named:
                self.name(names)
            self.space()
            self.value()
            self.space()
            if self.byte() == close:
                self.at += 1
                return
            if self.byte() != ord(","):
                raise Refused(4)
            self.at += 1
            self.space()

    def name(self, names):
        if self.byte() != ord('"'):
            raise Refused(4)
        row = self.node(TEXT, self.at + 1)
        decoded = self.string()
        self.ends(row, self.at - 1)
        if decoded in names:
            raise Refused(8)
        names.add(decoded)
        self.space()
        if self.byte() != ord(":"):
            raise Refused(4)
        self.at += 1

    def unit(self):
        four = self.text[self.at : self.at + 4]
        if not re.fullmatch(rb"[0-9A-Fa-f]{4}", four):
            raise Refused(4)
        self.at += 4
        return int(four, 16)

    def string(self):
        self.at += 1
        out = b""
        while True:
            c = self.byte()
            if c < 32:
                raise Refused(4)
            self.at += 1
            if c == ord('"'):
                return out
            if c != ord("\\"):
                out += bytes([c])
                continue
            e = self.byte()
            self.at += 1
            if e != -1 and e in b'"\\/bfnrt':
                out += bytes([b'"\\/\b\f\n\r\t'[b'"\\/bfnrt'.index(e)]])
            elif e == ord("u"):
                u = self.unit()
                if 0xD800 <= u < 0xDC00:
                    if self.text[self.at : self.at + 2] != b"\\u":
                        raise Refused(4)
                    self.at += 2
                    low = self.unit()
                    if not 0xDC00 <= low < 0xE000:
                        raise Refused(4)
                    u = 0x10000 + (u - 0xD800) * 0x400 + (low - 0xDC00)
                elif 0xDC00 <= u < 0xE000:
                    raise Refused(4)
                out += chr(u).encode()
            else:
                raise Refused(4)

    def number(self):
        """The longest beginning that a number may have, up to its byte 256; it must be a number where it ends."""
        start, rest = self.at, self.text[self.at : self.at + NUMBER + 1]
        begins = re.match(rb"-?(?:(?:0|[1-9][0-9]*)(?:\.(?:[0-9]+(?:[eE](?:[+-]?[0-9]*))?)?|[eE](?:[+-]?[0-9]*))?)?", rest).group()
        if len(begins) > NUMBER:
            raise Refused(6)
        self.at = start + len(begins)
        if not re.fullmatch(rb"-?(?:0|[1-9][0-9]*)(?:\.[0-9]+)?(?:[eE][+-]?[0-9]+)?", begins):
            raise Refused(4)


def answer(text):
    try:
        if len(text) > BYTES:
            raise Refused(2)
        try:
            text.decode()
        except UnicodeDecodeError:
            raise Refused(3) from None
        return Reader(text).whole()
    except Refused as r:
        return r.number


# ---- the same tree by Python's json
def tree(text, rows, k):
    kind, start, end, after = rows[k]
    span = text[start:end].decode()
    if kind == TEXT:
        return ("text", json.loads('"' + span + '"'))
    if kind == NUMERAL:
        return ("number", span)
    if kind in (NULL, TRUE, FALSE):
        return ("word", {NULL: None, TRUE: True, FALSE: False}[kind])
    out, k = [], k + 1
    while k < after:
        if kind == OBJECT:
            out.append((json.loads('"' + text[rows[k][1] : rows[k][2]].decode() + '"'), tree(text, rows, k + 1)))
            k = rows[k + 1][3]
        else:
            out.append(tree(text, rows, k))
            k = rows[k][3]
    return ("object" if kind == OBJECT else "array", out)


def shaped(v):
    if isinstance(v, tuple):
        return v if v[0] == "number" else ("object", [(k, shaped(x)) for k, x in v[1]])
    if isinstance(v, list):
        return ("array", [shaped(x) for x in v])
    return ("text", v) if isinstance(v, str) else ("word", v)


def by_python(text):
    def constant(name):
        raise ValueError(name)

    number = lambda s: ("number", s)
    return shaped(json.loads(text.decode(), parse_int=number, parse_float=number, parse_constant=constant, object_pairs_hook=lambda ps: ("object", ps)))


def held_against_json(text, got):
    if isinstance(got, list):
        assert by_python(text) == tree(text, got, 0), text
    elif got == 4 and not re.search(rb"\\u[dD][89a-fA-F]", text):
        try:
            by_python(text)
        except (ValueError, RecursionError):
            return
        raise AssertionError(text)


# ---- the texts
def limits():
    zeros = lambda n: b"[" + b",".join([b"0"] * n) + b"]"
    nested = lambda n: b"[" * n + b"]" * n
    objects = lambda n: b'{"a":' * n + b"1" + b"}" * n
    yield from (b'"' + b"a" * 32766 + b'"', b'"' + b"a" * 32767 + b'"', b" " * 32767 + b"1", b" " * 32769)
    yield from (nested(64), nested(65), objects(64), objects(65), b"[" * 64 + b"1[", b"[" * 65, b"{" * 2)
    for n in (254, 255, 256, 300):
        yield from (b"1" * n, b"-" + b"1" * (n - 1), b"[" + b"1" * n + b"]", b"1" * n + b".", b"1" * n + b"e", b"1" * n + b"x", b"1" * n + b"-", b"0." + b"5" * (n - 2), b"1" * (n - 2) + b"e+")
    yield from (b"0" + b"1" * 300, b"1" * 254 + b"e+", b"1" * 254 + b"ex", b"1" * 253 + b"e+1", b"1" * 252 + b"e+1")
    full = b"[" + b"0," * 4095
    yield from (zeros(4095), zeros(4096), full + b"tx", full + b"-x", full + b'"', full + b'"\\ud800"', full + b"[", full + b"x", full + b"]")
    for n in (2047, 2048):
        yield b"{" + b",".join(b'"%x":0' % k for k in range(n)) + b"}"
    yield b"[" + b"0," * 4093 + b'{"a":1,"a":2}]'
    yield b"[" + b"0," * 4092 + b'{"a":1,"a":2}]'
    deep = b"[" * 63
    yield deep + b"[" + b"0," * 4032 + b"["
    yield b"[" + b"0," * 4032 + b"[" * 63 + b"["
    yield b"[" + b"0," * 4031 + b"[" * 63 + b"["
    many = b",".join(b'"name%04d":%d' % (k, k) for k in range(2000))
    yield from (b"{" + many + b"}", b"{" + many + b',"name1234":1}', b"{" + many + b',"\\u006eame1999":1}', b"{" + many + b',"name2000":{"name0000":1}}')


def by_hand():
    yield from (b"", b" ", b"x", b"x\xff", b"\xff", b"\xef\xbb\xbf{}", "é".encode(), b'"\xc3"', b'"\xed\xa0\x80"', b'"\xf4\x90\x80\x80"', b'"\xc0\x80"', '"\U0010ffff"'.encode(), b'"\xe0\x80\x80"', b'"\xf0\x80\x80\x80"')
    yield from (b"{}", b"[]", b" { } ", b"\t[\n]\r", b"null", b"true", b"false", b"nul", b"truex", b"nullx", b"[1,]", b"[,1]", b"[1 2]", b"{,}", b'{"a"}', b'{"a":}', b'{"a":1,}', b'{"a":1 "a":2}', b"{1:2}", b"{'a':1}", b"[1]]", b"1 2", b"\x0b1", b"\xc2\xa01")
    yield from (b'{"a":1,"a":1}', b'{"a":1,"a"', b'{"a":1,"a', b'{"a":1,"a"x', b'{"a":1,"a\\ud800":1}', b'{"a":1,"\\u0061":1}', b'{"\\u00e9":1,"\xc3\xa9":2}', b'{"\\ud83d\\ude00":1,"\xf0\x9f\x98\x80":2}', b'{"a":{"a":1}}', b'{"a":1,"b":{"a":1}}', b'[{"a":1},{"a":1}]', b'{"":1,"":2}', b'{"a\\/":1,"a/":2}', b'{"e\\u0301":1,"\\u00e9":2}', b'{"A":1,"a":2}')
    yield from (b'"\\ud800"', b'"\\udc00"', b'"\\ud800\\ud800"', b'"\\ud83d\\ude00"', b'"\\ud83dx"', b'"\\ud83d\\n"', b'"\\uD83D\\uDE0g"', b'"\\u12"', b'"\\u"', b'"\\', b'"\\x"', b'"\\u0000"', b'"\x1f"', b'"\x00"', b'"\x7f"', b'"\n"', b'"\\n"', b'"\\"', b'"a', b'"')
    yield from (b"-", b"-0", b"00", b"01", b"-01", b"1.", b".5", b"1.e1", b"1e", b"1e+", b"1e-1", b"1E+01", b"+1", b"0x1", b"1.0.0", b"1e1e1", b"--1", b"- 1", b"1_0", b"Infinity", b"NaN", b"-Infinity", b"-x", b"0e0", b"0E-0", b"123456789012345678901234567890.5e12345678901234567890")


def published():
    """JSON_checker's texts as Python's own tests have them."""
    from test.test_json import test_fail, test_pass1, test_pass2, test_pass3

    yield from (d.encode() for d in test_fail.JSONDOCS)
    yield from (m.JSON.encode() for m in (test_pass1, test_pass2, test_pass3))


def suite():
    """JSONTestSuite's files that have at most one byte more than a sheet may have. A file y_* is JSON, n_* is not, i_* may be either."""
    with tempfile.TemporaryDirectory() as folder:
        subprocess.run(["apt-get", "source", "--download-only", "libcpanel-json-xs-perl"], cwd=folder, check=True, capture_output=True)
        subprocess.run("tar xf libcpanel-json-xs-perl_*.orig.tar.gz", cwd=folder, shell=True, check=True)
        for file in sorted(pathlib.Path(folder).glob("*/t/test_parsing/*.json")):
            text = file.read_bytes()
            got = answer(text)
            if file.name.startswith("n_"):
                assert got in (2, 3, 4), file.name
            elif file.name.startswith("y_") and "utf16" not in file.name and "utf32" not in file.name:
                assert got == 8 if "duplicated_key" in file.name else isinstance(got, list), file.name
            if len(text) <= BYTES + 1:
                yield text


def drawn(rng, depth):
    sort = rng.randrange(9 if depth else 6)
    if sort < 2:
        return rng.choice([b"null", b"true", b"false"])
    if sort < 4:
        return rng.choice([b"0", b"-0", b"1", b"-12", b"0.5", b"1e3", b"-1.25E-7", b"10", b"9e99"])
    if sort < 6:
        return quoted(rng)
    space = lambda: b" \t\n\r"[rng.randrange(4) :][:1] if rng.randrange(5) == 0 else b""
    if sort == 6:
        return b"[" + space() + b",".join(space() + drawn(rng, depth - 1) + space() for _ in range(rng.randrange(4))) + b"]"
    return b"{" + space() + b",".join(space() + quoted(rng) + space() + b":" + space() + drawn(rng, depth - 1) + space() for _ in range(rng.randrange(4))) + b"}"


def quoted(rng):
    parts = [b"a", b"b", b"ab", b"\\u0061", b"\\n", b"\\\\", b'\\"', b"\\/", "é".encode(), b"\\u00e9", "😀".encode(), b"\\ud83d\\ude00", b"\\ud800", b"$", b"."]
    return b'"' + b"".join(rng.choice(parts) for _ in range(rng.randrange(4))) + b'"'


def random_texts(rng, count):
    for _ in range(count):
        text = bytearray(drawn(rng, 4))
        for _ in range(rng.choice([0, 0, 1, 1, 2])):
            k = rng.randrange(len(text) + 1)
            if text and rng.randrange(2):
                del text[k % len(text)]
            else:
                text.insert(k, rng.choice(b'[]{},:"\\0159.eE+-tfnua \x00\x1f\x80\xc3\xff'))
        yield bytes(text)


def main():
    here = os.path.join(os.path.dirname(os.path.abspath(__file__)), "..", "..", "crates", "reading")
    texts = list(by_hand()) + list(limits()) + list(published()) + list(suite()) + list(random_texts(random.Random(1), 2000))
    with open(os.path.join(here, "stdin"), "wb") as lines, open(os.path.join(here, "stdout"), "wb") as answers:
        answers.write(b"1\n")
        for text in texts:
            got = answer(text)
            held_against_json(text, got)
            lines.write(b"%d\n%s\n" % (len(text), text))
            if isinstance(got, list):
                answers.write(b"ok" + b"".join(b" %d:%d-%d>%d" % tuple(r) for r in got) + b"\n")
            else:
                answers.write(b"%d\n" % got)


if __name__ == "__main__":
    sys.setrecursionlimit(10000)
    main()
