"""Sheets at the limits and past them by one, the ties of the first byte that shows a fault, and what the paper's table gives for work and output.

Each case is (call, place, work, output, sheet); the answers come from the model of the paper and the oracle.
"""

import itertools

import cases
import faults
import reading
from records import CALLS, OUTPUT, WORK

ZEROS = b"[" + b"0," * 4095

# short texts, JSON or not
TEXTS = [
    b"", b" ", b"x", b"\n", b"\x00", b"1 2", b"1,", b"[", b"[1", b"[1,", b"[1,]", b"[,1]", b"]", b"{", b"{}", b'{"a"', b'{"a":', b'{"a":1',
    b'{"a":1,', b'{"a":1,}', b"{,}", b"{1:1}", b"{a:1}", b"t", b"tru", b"true", b"truex", b"True", b"nul", b"null", b"false", b"fals", b'"', b'"a',
    b'"a"', b'"a"b', b"'a'", b'"\\', b'"\\x"', b'"\\u12"', b'"\\u12g4"', b'"\\u1234"', b'"\\ud800"', b'"\\udc00"', b'"\\ud800\\ud800"', b'"\\ud800x"',
    b'"\\ud800\\n"', b'"\\ud800\\udc00"', b'"\\udbff\\udfff"', b'"\\ud7ff\\ue000"', b'"\\u0000"', b'"\x1f"', b'"\x7f"', b'"\t"', b'"\n"', b"/**/1",
    b"[1]//", b"\xef\xbb\xbf1", b"\xef\xbb\xbf{}", b"\xfe\xff\x00[", b"[\x00]\x00", b"\x0c1", b"\xc2\xa01", b"\t\r\n 1\t\r\n ", b"[1]]", b"{}}",
    b"[}", b"{]",
]

# bytes that are not UTF-8
NOT_UTF8 = [
    b"\x80", b"\xbf", b"\xc0\x80", b"\xc1\xbf", b"\xe0\x80\x80", b"\xe0\x9f\xbf", b"\xed\xa0\x80", b"\xed\xbf\xbf", b"\xf0\x80\x80\x80",
    b"\xf0\x8f\xbf\xbf", b"\xf4\x90\x80\x80", b"\xf5\x80\x80\x80", b"\xf8\x88\x80\x80\x80", b"\xfe", b"\xff", b"\xc2", b"\xe1\x80", b"\xf1\x80\x80",
    b"\xc2\x20", b"\xe1\x80\x20", b"\xf1\x80\x80\x20", b"\xe1\xc2\x80",
]

# the first and last characters of each length
UTF8 = [
    b"\x7f", b"\xc2\x80", b"\xdf\xbf", b"\xe0\xa0\x80", b"\xed\x9f\xbf", b"\xee\x80\x80", b"\xef\xbf\xbf", b"\xf0\x90\x80\x80", b"\xf4\x8f\xbf\xbf",
]

# rules, right and wrong
RULES = [
    "null", "1", "[]", "{}", '{"assert":null}', '{"assert":true,"name":null}', '{"assert":true,"message":1}', '{"assert":true,"x":1}', '{"name":"n"}',
    '{"assert":true,"name":"","message":""}', '{"assert":5}', '{"assert":"x"}',
]

# effects, right and wrong
EFFECTS = [
    '"none"', '"creates"', '"updates"', '"moves"', '"None"', '""', "null", "true", "1", "[]", "{}", '{"none":null}', '{"moves":null}', '{"moves":{}}',
    '{"moves":{"to":"a"}}', '{"moves":{"from":"a"}}', '{"moves":{"to":"a","from":"in"}}', '{"moves":{"to":"a","from":[]}}',
    '{"moves":{"to":"a","from":["in","in"]}}', '{"moves":{"to":"a","from":["in",1]}}', '{"moves":{"to":"a","from":null}}',
    '{"moves":{"to":null,"from":"a"}}', '{"moves":{"to":"a","from":{"a":1}}}', '{"moves":{"to":"a","from":"b","x":1}}',
    '{"moves":{"to":"a","from":"b"},"x":1}', '{"\\u006doves":{"\\u0074o":"a","from":"in"}}', '"\\u006eone"', '{"moves":{"to":["a"],"from":"b"}}',
]

# outcomes, right and wrong
OUTCOMES = [
    "null", "[]", "{}", '{"name":null}', '{"name":1}', '{"name":"n","when":null}', '{"name":"n","in_state":null}', '{"name":"n","in_state":["in"]}',
    '{"name":"n","wrong_state":null}', '{"name":"n","wrong_state":"true"}', '{"name":"n","wrong_state":1}', '{"name":"n","refuses":{}}',
    '{"name":"n","when":5}', '{"name":"n","x":1}', '{"when":true}', '{"name":"n","effect":null}',
]

# members that hold a condition at fault
AT_FAULT = [
    ("preconditions", '[{"assert":{"before":1}}]'), ("invariants", '[{"assert":5}]'), ("condition", '{"all":[{"truthy":1}]}'),
    ("outcomes", '[{"name":"n","when":{"eq":[1]}}]'),
]


def every(sheet, work=WORK, output=OUTPUT, place=0):
    for call in CALLS:
        yield call, place, work, output, sheet


def decided(sheet):
    return "decide", 0, WORK, OUTPUT, sheet


def plain(**members):
    """A sheet that all six calls answer."""
    usual = {
        "args": '{"x":1.0}',
        "fields": "{}",
        "old_fields": "{}",
        "state": '"in"',
        "states": '["in","out"]',
        "preconditions": '[{"assert":true}]',
        "outcomes": '[{"name":"one","when":{"eq":["$args.x",2]}},{"name":"two"}]',
    }
    return cases.sheet("true", **{**usual, **members}).encode()


def padded(size):
    """A sheet of so many bytes, by spaces before its last brace."""
    sheet = plain()
    return sheet[:-1] + b" " * (size - len(sheet)) + b"}"


def nodes(sheet):
    reader = reading.Reader(sheet)
    reader.text()
    return reader.nodes


def of_nodes(count):
    """A sheet of so many nodes, by zeros in its arguments."""
    rest = nodes(plain(args='{"x":[]}'))
    return plain(args='{"x":[' + ",".join(["0"] * (count - rest)) + "]}")


def sizes():
    for size in (32768, 32769):
        yield decided(padded(size))
        yield "evaluate", 0, WORK, OUTPUT, padded(size)
        yield decided(b"\xff" * size)
        yield decided(b'"' + b"a" * (size - 2) + b'"')
    for count in (4095, 4096, 4097, 4098):
        yield decided(of_nodes(count))
        yield "admit", 0, WORK, OUTPUT, of_nodes(count)
        yield decided(b"[" + b",".join([b"0"] * (count - 1)) + b"]")
        yield decided(b'{"a":[' + b",".join([b"0"] * (count - 3)) + b"]}")
    for count in (2047, 2048):
        yield decided(b"{" + b",".join(b'"%d":0' % index for index in range(count)) + b"}")


def brackets():
    for depth in (63, 64, 65, 66):
        yield decided(b"[" * depth + b"]" * depth)
        yield decided(b"[" * depth)
        yield decided(b'{"a":' * depth + b"1" + b"}" * depth)
        yield decided(b'[{"a":' * (depth // 2) + b"[" * (depth % 2) + b"]" * (depth % 2) + b"}]" * (depth // 2))
        inside = depth - 2
        yield from every(plain(args='{"x":' + "[" * inside + "]" * inside + "}"))
    yield decided(b"[" * 64 + b"1[")
    yield decided(b"[" * 64 + b"]" * 64 + b"[")
    yield decided(b"[" * 64 + b'"["' + b"]" * 64)
    yield decided(b"[" * 65 + b"x")
    yield decided(b"[" * 64 + b"x[")
    yield decided(b"[" * 64 + b",[")


def numbers():
    whole = b"1" * 255
    for text in (
        [b"1" * length for length in (254, 255, 256, 257)]
        + [whole + byte for byte in (b".", b"e", b"E", b"-", b"+", b"x", b"1", b",", b" ", b"]")]
        + [b"1" * 254 + rest for rest in (b".", b".5", b"e+", b"e5", b"ex", b"e", b".x", b"e,", b"-")]
        + [b"1" * 253 + rest for rest in (b".5", b".55", b"e5", b"e55", b"e+5", b"e-")]
        + [b"0" + b"1" * 300, b"-" + b"1" * 254, b"-" + b"1" * 255, b"-0" + b"1" * 300, b"0." + b"0" * 253, b"0." + b"0" * 254]
        + [b"1e" + b"9" * 253, b"1e" + b"9" * 254, b"1e+" + b"9" * 252, b"1e+" + b"9" * 253]
        + [b"-", b"-x", b"+1", b".5", b"1.", b"1.e5", b"1e", b"1e+", b"01", b"-01", b"0x1", b"1e5.5", b"--1", b"1-1", b"Infinity", b"NaN", b"0e", b"1E+-1"]
    ):
        yield decided(text)
        yield decided(b"[" + text + b"]")
    for digits in (253, 254, 255, 256):
        for number in ("1" * digits, "0." + "1" * (digits - 2), "1e" + "9" * (digits - 2), "-1e-" + "9" * (digits - 4)):
            condition = f'{{"lt":["$args.x",{number}]}}'
            sheet = cases.sheet(condition, args=f'{{"x":{number}}}', preconditions=f'[{{"assert":{{"eq":["$args.x",{number}]}}}}]').encode()
            yield "evaluate", 0, WORK, OUTPUT, sheet
            yield "preconditions", 0, WORK, OUTPUT, sheet


def ties():
    for rest in (b"tx", b"x", b"-x", b'"', b'"\\ud800"', b"[", b"{", b"]", b"1x", b"-", b"nul", b",", b"0]"):
        yield decided(ZEROS + rest)
    nest = 64
    filled = 4096 - nest
    yield decided(b"[" * nest + b"0," * filled + b"[")
    yield decided(b"[" * nest + b"0," * (filled - 1) + b"[")
    yield decided(b"[" * (nest - 1) + b"0," * (filled + 1) + b"[")
    for count in (4092, 4093, 4094):
        held = b'{"a":[' + b",".join([b"0"] * count) + b"]"
        for rest in (b',"a":0}', b',"a"', b',"a', b',"x":0}', b"}"):
            yield decided(held + rest)
    for text in (
        b'{"a":1,"a"',
        b'{"a":1,"a',
        b'{"a":1,"a":',
        b'{"a":1,"a"x',
        b'{"a":1,"a":2}',
        b'{"a":1 "a":2}',
        b'{"a":1,"a\\ud800":1}',
        b'{"a":1,"\\u0061":1}',
        b'{"a":1,"\\u0061',
        b'{"\\ud83d\\ude00":1,"\xf0\x9f\x98\x80":1}',
        b'{"\xc3\xa9":1,"e\xcc\x81":1}',
        b'{"":1,"":2}',
        b'{"a":{"b":1},"c":{"b":1}}',
        b'{"a":{"a":1,"a":2}}',
        b'{"a":1,"A":2}',
        b'{"a":x,"a":1}',
        b'{"/":1,"\\/":2}',
        b'{"a":1,"a\\',
        b'{"a":1,"b":2,"a":3,',
    ):
        yield decided(text)
    for text in TEXTS:
        yield decided(text)


def encodings():
    for text in NOT_UTF8 + UTF8:
        yield decided(b'"' + text + b'"')
        yield decided(b"x" + text)
        yield decided(plain(entity='"@"').replace(b"@", text))
    for text in UTF8:
        condition = b'{"eq":["$args.@","$entity"]}'.replace(b"@", text)
        sheet = cases.sheet("@@", entity='"#"', args="{}").encode().replace(b"@@", condition).replace(b"#", text)
        yield "evaluate", 0, WORK, OUTPUT, sheet
    yield decided(plain() + b"\xff")
    yield decided(b"[" * 65 + b"\xff")


def shapes():
    """9: every member missing, null, of every kind; further ones; versions; effects."""
    usual = json_members(plain())
    kinds = ["null", "true", "1", '"a"', "[]", "{}"]
    for name in usual:
        yield decided(written({key: value for key, value in usual.items() if key != name}))
        for kind in kinds:
            yield decided(written({**usual, name: kind}))
    for name in ("x", "", "Entity", "conditions", "invariant"):
        yield decided(written({**usual, name: "1"}))
    for version in ("0", "-0", "-1", "1.0", "1e0", "10E0", "4294967295", "4294967296", "18446744073709551617", "00", '"1"', "9" * 255):
        yield decided(written({**usual, "version": version}))
    for states in ('["in",1]', '["in",null]', '["in",["out"]]', '["","",""]', '[true]'):
        yield decided(written({**usual, "states": states}))
    for rule in RULES:
        for name in ("preconditions", "invariants"):
            yield decided(written({**usual, name: f"[{rule}]"}))
            yield decided(written({**usual, name: f'[{{"assert":true}},{rule}]'}))
    for effect in EFFECTS:
        yield decided(written({**usual, "outcomes": f'[{{"name":"n","effect":{effect}}}]'}))
    for outcome in OUTCOMES:
        yield decided(written({**usual, "outcomes": f"[{outcome}]"}))
    # 9 anywhere comes before 10 and 11
    for name, value in itertools.product(("condition", "preconditions", "outcomes"), ('{"before":1}', "5")):
        held = {"condition": value, "preconditions": f'[{{"assert":{value}}}]', "outcomes": f'[{{"name":"n","when":{value}}}]'}[name]
        yield from every(written({**usual, name: held}))
        yield decided(written({**usual, name: held, "x": "1"}))
        yield decided(written({name: held, **{key: other for key, other in usual.items() if key not in (name, "entity")}}))
    # order by byte: the first condition at fault
    for first, second in itertools.permutations(AT_FAULT, 2):
        rest = {key: value for key, value in usual.items() if key not in (first[0], second[0])}
        yield decided(written({first[0]: first[1], **rest, second[0]: second[1]}))


def json_members(sheet):
    root = reading.tree(sheet)
    return {name: faults.text(value) for name, value in root.holds}


def written(members):
    return ("{" + ",".join(f'"{name}":{value}' for name, value in members.items()) + "}").encode()


def rooms():
    """Work, output and what a call lacks."""
    for work in (0, 1, 16383, 16384, 16385, 20000):
        yield from every(plain(), work=work)
        yield "decide", 0, work, OUTPUT, b"x"
        yield "decide", 0, work, 0, b""
    lacking = plain(condition=None, state=None)
    for output in (0, OUTPUT):
        yield from every(lacking, output=output)
        yield "decide", 0, WORK, output, b"[1"
        yield "evaluate", 0, WORK, output, plain(condition="5")
    for place in (0, 1, 2, 3, 255, 65536, 4294967295):
        yield "admit", place, WORK, OUTPUT, plain()
    yield from every(plain(outcomes="[]", preconditions="[]"))


def lines():
    """One sheet for each kind of line."""
    unknown = '{"eq":["$args.z",1]}'
    moving = '[{"name":"one","effect":{"moves":{"to":"a","from":["b","b\\n"]}}},{"name":"two","effect":{"moves":{"to":"a","from":"c"}}}]'
    late = '[{"name":"one","effect":{"moves":{"to":"a","from":"b"}}},{"name":"two","wrong_state":true}]'
    yield "evaluate", plain()
    yield "evaluate", plain(condition=unknown)
    yield "evaluate", plain(condition='{"any":[{"eq":["$args.\\"\\\\\\u0001",1]},{"eq":["$args.z",1]}]}')
    yield "evaluate", plain(condition='{"eq":["$foo\\n",1]}')
    yield "evaluate", plain(condition='{"eq":["$id",1]}', id=None)
    for call in ("preconditions", "invariants"):
        yield call, plain()
        for rule in ("false", unknown):
            for rest in ("", ',"name":""', ',"message":""', ',"name":"q\\"","message":"\\u0000\\u001f\\u0020\\u007f\\\\"'):
                rules = f'[{{"assert":true}},{{"assert":{rule}{rest}}}]'
                yield call, plain(preconditions=rules, invariants=rules)
    yield "select", plain()
    yield "select", plain(outcomes='[{"name":"one","when":false}]')
    yield "select", plain(outcomes=f'[{{"name":"no","wrong_state":true}},{{"name":"\\t","when":{unknown}}}]')
    yield "admit", plain()
    yield "admit", plain(outcomes=moving)
    yield "admit", plain(outcomes=moving, state='"c"')
    yield "admit", plain(outcomes=moving, state='"x"')
    yield "admit", plain(outcomes=late)
    yield "admit", plain(outcomes='[{"name":"one","effect":{"moves":{"to":"a","from":[]}}}]', state='"x"')
    yield "decide", plain()
    yield "decide", plain(outcomes=late)
    yield "decide", plain(outcomes=moving)
    yield "decide", plain(preconditions='[{"assert":false}]')
    yield "decide", plain(preconditions=f'[{{"assert":{unknown}}}]')
    yield "decide", plain(outcomes="[]")


def outputs(answer):
    """Each line in an output that it fills, and in one that is short by one byte; `answer` gives the line's length."""
    for call, sheet in lines():
        length = answer(call, sheet)
        for output in (0, 1, length - 1, length, length + 1):
            yield call, 0, WORK, output, sheet
    for count in (10918, 10919, 10920):
        message = "\\n" * count
        yield decided(plain(preconditions=f'[{{"assert":false,"message":"{message}"}}]'))


def admissions():
    """Every way that two outcomes and a state can meet."""
    sources = ['"in"', '"out"', '[]', '["a","in"]', None]
    for state, own, other, wrong in itertools.product(("in", "x"), sources, sources, ("none", "first", "second")):
        outcomes = []
        for place, source in enumerate((own, other)):
            effect = "" if source is None else f',"effect":{{"moves":{{"to":"a","from":{source}}}}}'
            mark = ',"wrong_state":true' if wrong == ("first", "second")[place] else ""
            outcomes.append(f'{{"name":"{place}"{effect}{mark}}}')
        sheet = plain(state=f'"{state}"', outcomes="[" + ",".join(outcomes) + "]")
        yield "admit", 0, WORK, OUTPUT, sheet
        yield "decide", 0, WORK, OUTPUT, sheet


def selections():
    """Eligibility: `in_state`, `wrong_state`, the guard and the state."""
    guards = ["", ',"when":true', ',"when":false', ',"when":{"eq":["$args.z",1]}', ',"when":{"eq":["$foo",1]}']
    marks = ["", ',"wrong_state":true', ',"wrong_state":false']
    for state, in_state, wrong, guard in itertools.product((None, '"in"', '"x"'), ("", ',"in_state":"in"'), marks, guards):
        sheet = plain(state=state, outcomes=f'[{{"name":"one"{in_state}{wrong}{guard}}},{{"name":"two"}}]')
        yield "select", 0, WORK, OUTPUT, sheet


def questions(answer):
    for part in (sizes(), brackets(), numbers(), ties(), encodings(), shapes(), rooms(), outputs(answer), admissions(), selections()):
        yield from part
