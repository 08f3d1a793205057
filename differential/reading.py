"""A model of the paper's reading, numbers 1 to 11, written from the paper alone.

`refusal(sheet, work)` is the number that reading gives, or 0 for an accepted sheet. A reader that goes byte by byte and stops at the first byte that
shows a fault; the lower number is tested first where a byte shows two.
"""

from typing import Any, NamedTuple

WORDS = 16384
BYTES = 32768
BRACKETS = 64
NODES = 4096
NUMBER = 255
VERSION = 4294967295

SPACE = b" \t\n\r"
DIGITS = b"0123456789"
ESCAPES = {ord('"'): '"', ord("\\"): "\\", ord("/"): "/", ord("b"): "\b", ord("f"): "\f", ord("n"): "\n", ord("r"): "\r", ord("t"): "\t"}

PAIRS = {"eq", "ne", "gt", "gte", "lt", "lte", "in", "contains", "starts_with", "ends_with"}
NOT_CARRIED = {"before", "after", "compare", "truthy"}


class Refused(Exception):
    def __init__(self, number):
        super().__init__(number)
        self.number = number


class Node(NamedTuple):
    """A value: its kind (null, bool, number, text, array, object) and what it holds; members are pairs of name and value in written order."""

    kind: str
    holds: Any


class Reader:
    def __init__(self, sheet: bytes):
        self.sheet = sheet
        self.at = 0
        self.nodes = 0
        self.open = 0

    def byte(self):
        return self.sheet[self.at] if self.at < len(self.sheet) else None

    def expect(self, allowed: bytes):
        """The byte here, which must be one of these, and a step on."""
        byte = self.byte()
        if byte is None or byte not in allowed:
            raise Refused(4)
        self.at += 1
        return byte

    def space(self):
        while self.byte() is not None and self.byte() in SPACE:
            self.at += 1

    def node(self):
        self.nodes += 1
        if self.nodes > NODES:
            raise Refused(7)

    def text(self) -> Node:
        value = self.value()
        self.space()
        if self.byte() is not None:
            raise Refused(4)
        return value

    def value(self) -> Node:
        self.space()
        byte = self.byte()
        if byte is None or byte not in b'{["-0123456789tfn':
            raise Refused(4)
        if byte in b"{[" and self.open == BRACKETS:
            raise Refused(5)
        self.node()
        if byte in b"{[":
            self.open += 1
            value = self.object() if byte == ord("{") else self.array()
            self.open -= 1
            return value
        if byte == ord('"'):
            return Node("text", self.string())
        if byte in b"tfn":
            return self.word()
        return self.number()

    def word(self) -> Node:
        word, node = {
            ord("t"): (b"true", Node("bool", True)),
            ord("f"): (b"false", Node("bool", False)),
            ord("n"): (b"null", Node("null", None)),
        }[self.byte()]
        for byte in word:
            self.expect(bytes([byte]))
        return node

    def array(self) -> Node:
        self.at += 1
        elements = []
        self.space()
        if self.byte() == ord("]"):
            self.at += 1
            return Node("array", elements)
        while True:
            elements.append(self.value())
            self.space()
            if self.expect(b",]") == ord("]"):
                return Node("array", elements)

    def object(self) -> Node:
        self.at += 1
        members: list = []
        names: set = set()
        self.space()
        if self.byte() == ord("}"):
            self.at += 1
            return Node("object", members)
        while True:
            self.space()
            if self.byte() != ord('"'):
                raise Refused(4)
            self.node()
            name = self.string()
            if name in names:
                raise Refused(8)
            names.add(name)
            self.space()
            self.expect(b":")
            members.append((name, self.value()))
            self.space()
            if self.expect(b",}") == ord("}"):
                return Node("object", members)

    def number(self) -> Node:
        """RFC 8259's number as an automaton: the state says which bytes may come next."""
        start = self.at
        steps = {
            "start": [(b"-", "sign"), (b"0", "zero"), (b"123456789", "whole")],
            "sign": [(b"0", "zero"), (b"123456789", "whole")],
            "zero": [(b".", "point"), (b"eE", "mark")],
            "whole": [(DIGITS, "whole"), (b".", "point"), (b"eE", "mark")],
            "point": [(DIGITS, "fraction")],
            "fraction": [(DIGITS, "fraction"), (b"eE", "mark")],
            "mark": [(b"+-", "signed"), (DIGITS, "exponent")],
            "signed": [(DIGITS, "exponent")],
            "exponent": [(DIGITS, "exponent")],
        }
        state = "start"
        while True:
            byte = self.byte()
            following = [then for allowed, then in steps[state] if byte is not None and byte in allowed]
            if not following:
                if state in ("zero", "whole", "fraction", "exponent"):
                    return Node("number", self.sheet[start : self.at].decode())
                raise Refused(4)
            if self.at - start == NUMBER:
                raise Refused(6)
            state = following[0]
            self.at += 1

    def unit(self) -> int:
        """Four hexadecimal digits."""
        digits = bytes(self.expect(b"0123456789abcdefABCDEF") for _ in range(4))
        return int(digits, 16)

    def escape(self) -> str:
        byte = self.byte()
        if byte != ord("u"):
            if byte not in ESCAPES:
                raise Refused(4)
            self.at += 1
            return ESCAPES[byte]
        self.at += 1
        unit = self.unit()
        if 0xDC00 <= unit <= 0xDFFF:
            raise Refused(4)
        if not 0xD800 <= unit <= 0xDBFF:
            return chr(unit)
        self.expect(b"\\")
        self.expect(b"u")
        low = self.unit()
        if not 0xDC00 <= low <= 0xDFFF:
            raise Refused(4)
        return chr(0x10000 + (unit - 0xD800) * 0x400 + (low - 0xDC00))

    def string(self) -> str:
        self.at += 1
        parts = bytearray()
        while True:
            byte = self.byte()
            if byte is None or byte < 32:
                raise Refused(4)
            self.at += 1
            if byte == ord('"'):
                return parts.decode()
            if byte == ord("\\"):
                parts += self.escape().encode()
            else:
                parts.append(byte)


def members(node: Node, needed: dict, optional: dict) -> dict:
    """The members of an object that has just these, each of its kind."""
    if node.kind != "object":
        raise Refused(9)
    held = dict(node.holds)
    if not set(needed) <= set(held) or not set(held) <= set(needed) | set(optional):
        raise Refused(9)
    for name, value in held.items():
        kind = needed.get(name) or optional[name]
        if value.kind == "null" or kind not in ("any", value.kind):
            raise Refused(9)
    return held


def texts(node: Node):
    for element in node.holds:
        if element.kind != "text":
            raise Refused(9)


def rule(node: Node):
    members(node, {"assert": "any"}, {"name": "text", "message": "text"})


def effect(node: Node):
    if node.kind == "text":
        if node.holds not in ("none", "creates", "updates"):
            raise Refused(9)
        return
    moves = members(node, {"moves": "object"}, {})["moves"]
    sources = members(moves, {"to": "text", "from": "any"}, {})["from"]
    if sources.kind == "array":
        texts(sources)
    elif sources.kind != "text":
        raise Refused(9)


def outcome(node: Node):
    held = members(node, {"name": "text"}, {"when": "any", "in_state": "text", "wrong_state": "bool", "effect": "any"})
    if "effect" in held:
        effect(held["effect"])


def shape(root: Node):
    """9: the members and elements of sheet, rules, outcomes and effects."""
    held = members(
        root,
        {
            **dict.fromkeys(["entity", "to_state"], "text"),
            **dict.fromkeys(["args", "fields", "old_fields"], "object"),
            **dict.fromkeys(["states", "preconditions", "invariants", "outcomes"], "array"),
            "version": "number",
        },
        {**dict.fromkeys(["id", "from_state", "state"], "text"), "condition": "any"},
    )
    version = held["version"].holds
    if not version.isdigit() or int(version) > VERSION:
        raise Refused(9)
    texts(held["states"])
    for name, element in [("preconditions", rule), ("invariants", rule), ("outcomes", outcome)]:
        for node in held[name].holds:
            element(node)


def condition(node: Node):
    """10 and 11, the condition itself before those inside it; those inside in written order."""
    if node.kind == "bool":
        return
    if node.kind != "object" or len(node.holds) != 1:
        raise Refused(10)
    operator, held = node.holds[0]
    if operator in NOT_CARRIED:
        raise Refused(11)
    if operator in ("all", "any"):
        if held.kind != "array":
            raise Refused(10)
        for child in held.holds:
            condition(child)
    elif operator == "not":
        condition(held)
    elif operator in ("for_all", "for_any"):
        parts = dict(held.holds) if held.kind == "object" else {}
        if set(parts) != {"in", "as", "that"} or parts["as"].kind != "text":
            raise Refused(10)
        condition(parts["that"])
    elif operator in PAIRS:
        if held.kind != "array" or len(held.holds) != 2:
            raise Refused(10)
    elif operator != "exists":
        raise Refused(10)


def conditions(root: Node):
    """Every condition of the sheet, in written order."""
    for name, value in root.holds:
        if name == "condition":
            condition(value)
        elif name in ("preconditions", "invariants", "outcomes"):
            for element in value.holds:
                for member, held in element.holds:
                    if member in ("assert", "when"):
                        condition(held)


def tree(sheet: bytes) -> Node:
    if len(sheet) > BYTES:
        raise Refused(2)
    try:
        sheet.decode("utf-8")
    except UnicodeDecodeError:
        raise Refused(3) from None
    return Reader(sheet).text()


def refusal(sheet: bytes, work: int) -> int:
    if work < WORDS:
        return 1
    try:
        root = tree(sheet)
        shape(root)
        conditions(root)
    except Refused as refused:
        return refused.number
    return 0
