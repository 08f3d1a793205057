"""Sheets with faults: bytes changed, or the tree changed, at places drawn from a seed. Some stay accepted."""

import json
import random

import reading
from reading import Node

BYTES = [bytes([byte]) for byte in b'{}[],:"\\0189-+.eEtfnux/ \t\n\r\0\x1f\x7f\x80\xbf\xc0\xc2\xed\xf4\xff'] + [
    b"null",
    b"\\ud800",
    b"\\udc00",
    b"\\ud83d\\ude00",
    b"\xf0\x9f\x98\x80",
    b"\xed\xa0\x80",
    b"\xef\xbb\xbf",
    b"1e5",
    b"00",
    b"1.",
    b"[[",
    b"]]",
    b'"a":1,',
    b'"x":null,',
    b"\\u0024",
    b"\\x",
]

NAMES = """
entity version args fields old_fields to_state id from_state state states preconditions invariants outcomes condition assert name message
when in_state wrong_state effect moves to from all any not exists eq ne gt gte lt lte in contains starts_with ends_with for_all for_any
before after compare truthy as that x
""".split() + [""]

FAULTY = [
    "null",
    "5",
    '"x"',
    "[]",
    "{}",
    '{"before":1}',
    '{"after":[1,2]}',
    '{"compare":{"left":1,"op":"eq","right":1}}',
    '{"truthy":null}',
    '{"before":[],"x":1}',
    '{"before":1,"after":1}',
    '{"all":[{"before":1},null]}',
    '{"all":[null,{"before":1}]}',
    '{"all":[{"before":1}],"x":1}',
    '{"all":{}}',
    '{"any":true}',
    '{"any":[true,[]]}',
    '{"not":null}',
    '{"not":[]}',
    '{"not":{"truthy":1}}',
    '{"eq":[1]}',
    '{"eq":[1,2,3]}',
    '{"eq":{"a":1,"b":2}}',
    '{"eq":[]}',
    '{"starts_with":"ab"}',
    '{"foo":1}',
    '{"":true}',
    '{"Eq":[1,1]}',
    '{"for_all":{"in":[],"as":1,"that":true}}',
    '{"for_all":{"in":[],"as":null,"that":{"before":1}}}',
    '{"for_any":{"in":[],"as":"c"}}',
    '{"for_any":{"in":[],"as":"c","that":null}}',
    '{"for_any":{"in":[],"as":"c","that":{"compare":1}}}',
    '{"for_any":{"that":{"before":1},"in":null,"as":"c"}}',
    '{"for_any":{"in":[],"as":"c","that":true,"x":1}}',
    '{"for_all":[]}',
    '{"exists":null,"not":true}',
    '{"eq":[{"before":1},{"x":null}]}',
    '{"exists":{"truthy":1}}',
    '{"for_all":{"in":{"before":1},"as":"","that":false}}',
]

VALUES = [
    "null", "true", "0", "-0", "1.0", "4294967295", "4294967296", '""', '"none"', '"moves"', '"creates"', "[]", "{}", "[null]", '["a"]',
    '{"moves":{"to":"a","from":"b"}}', '{"moves":{"to":"a"}}', '{"none":null}', '{"name":"n"}', '{"assert":true}',
]


def bytes_changed(draw: random.Random, sheet: bytes) -> bytes:
    for _ in range(draw.choice([1, 1, 1, 2])):
        at = draw.randrange(len(sheet) + 1)
        end = min(len(sheet), at + draw.randrange(4))
        way = draw.randrange(6)
        if way == 0:
            sheet = sheet[:at] + sheet[end:]
        elif way == 1:
            sheet = sheet[:at]
        elif way == 2:
            far = min(len(sheet), at + draw.randrange(60))
            sheet = sheet[:far] + sheet[at:far] + sheet[far:]
        elif way == 3:
            sheet = sheet[:at] + draw.choice(BYTES) + sheet[end:]
        else:
            sheet = sheet[:at] + draw.choice(BYTES) + sheet[at:]
    return sheet


def parsed(text: str) -> Node:
    return reading.tree(text.encode())


def text(node: Node) -> str:
    if node.kind == "text":
        return json.dumps(node.holds, ensure_ascii=False)
    if node.kind == "array":
        return "[" + ",".join(text(element) for element in node.holds) + "]"
    if node.kind == "object":
        return "{" + ",".join(json.dumps(name, ensure_ascii=False) + ":" + text(value) for name, value in node.holds) + "}"
    return {None: "null", True: "true", False: "false"}.get(node.holds, node.holds)


def parts(node: Node, path=()):
    """Where the values of a tree stand, less those inside arguments and fields."""
    yield path
    if node.kind == "array":
        inner = enumerate(node.holds)
    elif node.kind == "object":
        inner = enumerate(value for _, value in node.holds)
    else:
        return
    for index, value in inner:
        if path or not (node.kind == "object" and node.holds[index][0] in ("args", "fields", "old_fields")):
            yield from parts(value, path + (index,))


def edited(node: Node, path, edit) -> Node:
    if not path:
        return edit(node)
    holds = list(node.holds)
    if node.kind == "array":
        holds[path[0]] = edited(holds[path[0]], path[1:], edit)
    else:
        name, value = holds[path[0]]
        holds[path[0]] = (name, edited(value, path[1:], edit))
    return Node(node.kind, holds)


def fault(draw: random.Random, node: Node) -> Node:
    """Another value in the place of this one."""
    way = draw.randrange(10)
    if way < 2:
        return parsed(draw.choice(FAULTY))
    if way < 4 or node.kind not in ("array", "object"):
        return parsed(draw.choice(VALUES))
    holds = list(node.holds)
    at = draw.randrange(len(holds) + 1)
    new = parsed(draw.choice(FAULTY + VALUES))
    if node.kind == "array":
        if way < 7 or at == len(holds):
            holds.insert(at, new)
        elif way == 7:
            holds.insert(at, holds[at])
        else:
            del holds[at]
        return Node("array", holds)
    name = draw.choice(NAMES)
    if way < 6 or at == len(holds):
        holds.insert(at, (name, new))
    elif way < 8:
        holds[at] = (name, holds[at][1])
    else:
        del holds[at]
    return Node("object", holds)


def tree_changed(draw: random.Random, sheet: bytes) -> bytes:
    root = reading.tree(sheet)
    for _ in range(draw.choice([1, 1, 1, 2, 3])):
        places = list(parts(root))
        root = edited(root, draw.choice(places), lambda node: fault(draw, node))
    return text(root).encode()


def below(node: Node, path):
    """Where the conditions of a condition stand, itself first."""
    yield path
    if node.kind != "object" or len(node.holds) != 1:
        return
    operator, held = node.holds[0]
    if operator in ("all", "any"):
        for index, child in enumerate(held.holds):
            yield from below(child, path + (0, index))
    elif operator == "not":
        yield from below(held, path + (0,))
    elif operator in ("for_all", "for_any"):
        at = [name for name, _ in held.holds].index("that")
        yield from below(held.holds[at][1], path + (0, at))


def conditions(root: Node):
    """Where the conditions of an accepted sheet stand."""
    for at, (name, value) in enumerate(root.holds):
        if name == "condition":
            yield from below(value, (at,))
        elif name in ("preconditions", "invariants", "outcomes"):
            for place, element in enumerate(value.holds):
                for index, (member, held) in enumerate(element.holds):
                    if member in ("assert", "when"):
                        yield from below(held, (at, place, index))


def condition_changed(draw: random.Random, sheet: bytes) -> bytes:
    """One or two conditions replaced by faulty ones."""
    root = reading.tree(sheet)
    places = list(conditions(root))
    # the deeper one first, so that the other's place stays
    for path in sorted(draw.sample(places, min(len(places), draw.choice([1, 1, 2]))), key=len, reverse=True):
        root = edited(root, path, lambda node: parsed(draw.choice(FAULTY)))
    return text(root).encode()


def changed(draw: random.Random, sheet: bytes) -> bytes:
    return draw.choice([bytes_changed, tree_changed, condition_changed])(draw, sheet)


TOKENS = [bytes([byte]) for byte in b'{}[],:"\\ -0159.eEtfn\x1f\x7f'] + [
    b'{"a":', b'"a"', b'"b"', b'"a":', b'"\\u0061":', b",", b",", b":", b"]", b"}", b"true", b"null", b"false", b"1", b"-0", b"1.5", b"1e+5", b"\n", b"\t", b"\r",
    b'"\\ud83d\\ude00"', b'"\\ud83d', b"\\u00", b"\\n", b"\xc3\xa9", b"\xf0\x9f\x98\x80", b'""', b"[]", b"{}",
]


def tokens(draw: random.Random, most: int) -> bytes:
    return b"".join(draw.choice(TOKENS) for _ in range(draw.randrange(most + 1)))


def little(draw: random.Random, depth: int) -> bytes:
    """A small JSON text; few names, so that they are often repeated."""
    space = draw.choice([b"", b"", b"", b" ", b"\n\t"])
    way = draw.randrange(4 if depth else 2)
    if way < 2:
        return space + draw.choice([b"1", b"-0.5e+7", b"true", b"null", b'"a"', b'"\\u00e9"', b'"\\ud83d\\ude00"', b'""']) + space
    parts = [little(draw, depth - 1) for _ in range(draw.randrange(4))]
    if way == 2:
        return b"[" + b",".join(parts) + space + b"]"
    return b"{" + b",".join(space + draw.choice(NAMED) + space + b":" + part for part in parts) + space + b"}"


NAMED = [b'"a"', b'"\\u0061"', b'"b"', b'""', b'"\\ud83d\\ude00"', b'"\xf0\x9f\x98\x80"', b'"c"', b'"aa"', b'"A"']


def opened(draw: random.Random, brackets: int) -> bytes:
    """So many open brackets."""
    return b"".join(draw.choice([b"[", b"[", b'{"a":', b'[1,', b'{"b":0,"":']) for _ in range(brackets))


def edge(draw: random.Random) -> bytes:
    """A text that is short, or that stands right before a limit, and then some tokens."""
    way = draw.randrange(20)
    if way < 3:
        return tokens(draw, 8)
    if way < 10:
        text = little(draw, 3)
        return bytes_changed(draw, text) if draw.randrange(2) else text
    if way < 14:
        return draw.choice([b"", b"[", b"-"]) + draw.choice([b"1", b"0.", b"1e", b"1e+", b"12.5e-"]) + b"1" * draw.randrange(248, 257) + tokens(draw, 4)
    if way < 18:
        return opened(draw, draw.randrange(61, 67)) + tokens(draw, 4)
    nodes = draw.randrange(4092, 4097)
    start, used = draw.choice([(b"[", 1), (b'{"a":[', 3), (b'{"a":1,"b":[', 5), (b"[" * 63, 63), (b"[" * 64, 64)])
    return start + b"0," * (nodes - used) + draw.choice([b"", b"0,", b"0,0,", b'"x', b"tru", b"[", b"{", b"-", b'{"a"', b"[0,"]) + tokens(draw, 4)
