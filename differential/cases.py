"""Conditions written by hand, and the sheet that they stand in: the paper's table, its slips, how open points are read, every form."""

ARGS = (
    '{"v":[3.61,3.58],"a":{"":5,"b":{"":{"c":7}}},"n":null,"t":"abc","o":{"b":2,"a":1},"e":[],"m":{},"x":1.0,"k":{"id":9},'
    '"nulls":[null,1],"args":3,"":8,"d.d":4,"$w":6,"deep":[[1,[2]]]}'
)
FIELDS = '{"v":2,"t":"$args.v","list":["$$a","$a",{"k":"$id"}]}'
OLD_FIELDS = '{"v":[{"r":1},{"r":2},{"r":null},{}]}'


def sheet(condition, /, **members):
    """A sheet's text; a member given as None is left out, another replaces the usual one."""
    held = {
        "entity": '"thing"',
        "version": "1",
        "args": ARGS,
        "fields": FIELDS,
        "old_fields": OLD_FIELDS,
        "to_state": '"to"',
        "from_state": '"from"',
        "id": '"i"',
        "states": "[]",
        "preconditions": "[]",
        "invariants": "[]",
        "outcomes": "[]",
        "condition": condition,
    }
    held.update(members)
    return "{" + ",".join(f'"{name}":{value}' for name, value in held.items() if value is not None) + "}"


TABLE = [
    '{"all":[]}',
    '{"any":[]}',
    '{"for_all":{"in":"abc","as":"c","that":true}}',
    '{"eq":[null,null]}',
    '{"gt":["a",1]}',
    '{"eq":[1.0,10e-1]}',
    '{"eq":[-0,0.00]}',
    '{"lt":[9e12345678901234567890,1e12345678901234567891]}',
    '{"any":[true,{"eq":["$foo",1]}]}',
    '{"exists":"$args.z"}',
    '{"eq":["$args.a.",5]}',
    '{"contains":[{"a":1},"a"]}',
    '{"in":[1,"x"]}',
]

SLIPS = [
    '{"all":[false,{"eq":["$foo",1]}]}',
    '{"all":[false,{"eq":["$args.z",1]}]}',
    '{"any":[true,{"eq":["$args.z",1]}]}',
    '{"all":[{"eq":["$args.z",1]},false,{"eq":["$args.y",1]}]}',
    '{"gt":["b","a"]}',
    '{"lte":["a","a"]}',
    '{"gt":["$args.t","$args.t"]}',
    '{"gte":[true,false]}',
    '{"eq":["$state","to"]}',
    '{"eq":["$state","from"]}',
    '{"eq":["$state","$to_state"]}',
    '{"gt":[1e9223372036854775808,1e9223372036854775807]}',
    '{"gt":[1e-9223372036854775809,1e-9223372036854775808]}',
    '{"eq":[1e18446744073709551616,0]}',
    '{"gt":[1e99999999999999999999999999999999999999,10e99999999999999999999999999999999999998]}',
    '{"eq":[1e99999999999999999999999999999999999999,10e99999999999999999999999999999999999998]}',
    '{"lt":[0.001e99999999999999999999999999999999999999,1e99999999999999999999999999999999999996]}',
    '{"eq":[0.001e99999999999999999999999999999999999999,1e99999999999999999999999999999999999996]}',
    '{"exists":null}',
    '{"ne":[null,1]}',
    '{"in":[null,[1,null]]}',
    '{"contains":[[null],null]}',
    '{"eq":["$args.n",null]}',
    '{"exists":"$args.n"}',
    '{"exists":[null]}',
    '{"exists":["$args.n"]}',
    '{"in":[null,"$args.nulls"]}',
]

READINGS = [
    # binders
    '{"for_all":{"in":[1,2],"as":"","that":{"gt":["$",0]}}}',
    '{"for_all":{"in":[{"a":1}],"as":"","that":{"eq":["$.a",1]}}}',
    '{"for_all":{"in":[{"":1}],"as":"","that":{"eq":["$.",1]}}}',
    '{"eq":["$",1]}',
    '{"eq":["$.",1]}',
    '{"eq":["$.a",1]}',
    '{"for_any":{"in":[1],"as":"a.b","that":{"eq":["$a.b",1]}}}',
    '{"for_any":{"in":[1],"as":"$a","that":{"eq":["$$a",1]}}}',
    '{"for_any":{"in":[1],"as":"$a","that":{"eq":["$$a","$$a"]}}}',
    '{"for_any":{"in":[1],"as":"args","that":{"eq":["$args",1]}}}',
    '{"for_any":{"in":[1],"as":"args","that":{"eq":["$args.v",1]}}}',
    '{"for_any":{"in":[1],"as":"args","that":{"exists":"$args.v"}}}',
    '{"for_any":{"in":[{"v":4}],"as":"fields","that":{"eq":["$fields.v",4]}}}',
    '{"all":[{"for_any":{"in":[{"v":4}],"as":"fields","that":{"eq":["$fields.v",4]}}},{"eq":["$fields.v",2]}]}',
    '{"for_any":{"in":["$args"],"as":"c","that":{"eq":["$c.x",1]}}}',
    '{"for_any":{"in":["$args"],"as":"args","that":{"eq":["$args.args",3]}}}',
    '{"for_any":{"in":[5],"as":"foo","that":{"eq":["$foo",5]}}}',
    '{"all":[{"for_any":{"in":[5],"as":"foo","that":{"eq":["$foo",5]}}},{"eq":["$foo",5]}]}',
    '{"for_all":{"in":[1,2],"as":"c","that":{"for_all":{"in":[3,4],"as":"c","that":{"gte":["$c",3]}}}}}',
    '{"for_all":{"in":[1,2],"as":"c","that":{"for_any":{"in":[1,2],"as":"d","that":{"eq":["$c","$d"]}}}}}',
    '{"for_all":{"in":[1,2],"as":"c","that":{"for_any":{"in":["$c"],"as":"c","that":{"eq":["$c",1]}}}}}',
    '{"for_any":{"in":[1,2],"as":"c","that":{"for_any":{"in":["$c"],"as":"c","that":{"eq":["$c",2]}}}}}',
    '{"for_all":{"in":"$args.nulls","as":"c","that":{"eq":["$c",1]}}}',
    '{"for_any":{"in":"$args.nulls","as":"c","that":{"eq":["$c",1]}}}',
    '{"for_all":{"in":[null],"as":"c","that":{"eq":["$c",null]}}}',
    '{"for_all":{"in":[null],"as":"c","that":{"exists":"$c"}}}',
    '{"for_all":{"in":[null],"as":"c","that":{"exists":["$c"]}}}',
    '{"for_any":{"in":"$old_fields.v","as":"c","that":{"gt":["$c.r",1]}}}',
    '{"for_all":{"in":"$old_fields.v","as":"c","that":{"gte":["$c.r",1]}}}',
    '{"for_all":{"in":"$old_fields.v","as":"c","that":{"gt":["$c.r",1]}}}',
    '{"for_any":{"in":"$args.o","as":"c","that":{"eq":["$c",2]}}}',
    '{"for_all":{"in":"$args.o","as":"c","that":{"any":[{"eq":["$c",1]},{"eq":["$foo",1]}]}}}',
    '{"for_any":{"in":{"b":1,"a":"$args.z","c":"$args.y"},"as":"c","that":true}}',
    '{"for_any":{"in":[1,"$args.z"],"as":"c","that":{"eq":["$foo",1]}}}',
    '{"for_any":{"in":[],"as":"c","that":{"eq":["$foo",1]}}}',
    '{"for_all":{"in":{},"as":"c","that":{"eq":["$foo",1]}}}',
    '{"for_all":{"in":5,"as":"c","that":{"eq":["$foo",1]}}}',
    '{"for_all":{"in":null,"as":"c","that":true}}',
    '{"for_any":{"in":"$args.z","as":"c","that":true}}',
    '{"for_any":{"in":"$args.n","as":"c","that":true}}',
    '{"for_any":{"in":"$args.t","as":"c","that":true}}',
    '{"for_any":{"in":["$$foo"],"as":"c","that":{"eq":["$c","$$foo"]}}}',
    '{"for_any":{"in":["$$foo"],"as":"c","that":{"eq":["$c","$foo"]}}}',
    '{"for_any":{"in":[{"k":"$args"}],"as":"c","that":{"eq":["$c.k.o.a",1]}}}',
    '{"for_any":{"in":[{"k":"$args"}],"as":"c","that":{"eq":["$c.k.a.",5]}}}',
    '{"for_any":{"in":[{"k":"$args"}],"as":"c","that":{"eq":["$c.k.",8]}}}',
    '{"for_any":{"in":[{"k":"$args"}],"as":"c","that":{"eq":["$c.k.a.b..c",7]}}}',
    '{"for_any":{"in":"$fields.list","as":"c","that":{"eq":["$c","$$$a"]}}}',
    '{"for_any":{"in":"$fields.list","as":"c","that":{"eq":["$c",{"k":"$$id"}]}}}',
    '{"for_any":{"in":"$fields.list","as":"c","that":{"eq":["$c.k","$$id"]}}}',
    '{"for_any":{"in":[{"":{"":1}}],"as":"c","that":{"eq":["$c..",1]}}}',
    '{"for_any":{"in":[1],"as":"\\u0063","that":{"eq":["\\u0024c",1]}}}',
    '{"for_any":{"in":[1],"as":"\\ud83d\\ude00","that":{"eq":["$\\uD83D\\uDE00",1]}}}',
    '{"for_any":{"in":[1,2,3],"as":"c","that":{"any":[{"eq":["$c",2]},{"eq":["$args.z",1]}]}}}',
    '{"for_any":{"in":[2,"a"],"as":"c","that":{"any":[{"eq":["$c",2]},{"eq":["$foo",1]}]}}}',
    '{"for_any":{"in":[2],"as":"c","that":{"eq":["$c",2]}}}',
    '{"for_any":{"in":[2,1],"as":"c","that":{"all":[{"eq":["$c",2]},{"not":{"gt":["$c.z",1]}}]}}}',
    # paths and expressions
    '{"eq":["$args.",1]}',
    '{"eq":["$args..a",1]}',
    '{"eq":["$args..",1]}',
    '{"eq":["$fields.",1]}',
    '{"eq":["$old_fields..v",1]}',
    '{"eq":["$args.a..",1]}',
    '{"eq":["$args.a.b..c",7]}',
    '{"eq":["$args.d.d",4]}',
    '{"eq":["$args.$w",6]}',
    '{"eq":["$args.v.0",3.61]}',
    '{"eq":["$args.t.count",3]}',
    '{"eq":["$args.k.id",9]}',
    '{"eq":["$id.x",1]}',
    '{"eq":["$state.",1]}',
    '{"eq":["$entity.",1]}',
    '{"eq":["$version.",1]}',
    '{"eq":["$Args.v",1]}',
    '{"eq":["$args.v","$args.v"]}',
    '{"eq":["$entity","thing"]}',
    '{"eq":["$version",10e-1]}',
    '{"eq":["$version","1"]}',
    '{"eq":["$id","i"]}',
    '{"eq":["$from_state","from"]}',
    '{"eq":["$fields.t","$$args.v"]}',
    '{"eq":["$fields.t","$args.v"]}',
    '{"eq":["$$","$$"]}',
    '{"starts_with":["$$$a","$$$"]}',
    '{"starts_with":["$$a","$"]}',
    '{"starts_with":["$$a","$$"]}',
    '{"eq":["\\u0024args\\u002ex",1]}',
    '{"eq":["$args.\\u0061.\\u0062..c",7]}',
    '{"\\u0065q":["\\u0024\\u0024x","$$x"]}',
    '{"exists":"$foo"}',
    '{"exists":["$args.z","$foo"]}',
    '{"exists":{"a":"$args.z"}}',
    '{"exists":{"a":"$args.x"}}',
    '{"not":{"exists":"$args.z"}}',
    '{"in":[1,[1,"$args.z"]]}',
    '{"in":["$args.z",5]}',
    '{"eq":[{"b":"$foo","a":"$bar"},1]}',
    '{"eq":[{"b":"$args.z","a":"$args.y"},{"c":"$args.y","":"$args.w"}]}',
    '{"eq":[{"$args.v":1},{"$args.v":1}]}',
    '{"contains":["$args","v"]}',
    '{"contains":["$args","zz"]}',
    '{"contains":[{"1":1},1]}',
    '{"contains":["abcabc","cab"]}',
    '{"contains":["aaab","aab"]}',
    '{"contains":["abc",""]}',
    '{"contains":["","a"]}',
    '{"contains":["","" ]}',
    '{"contains":["é","\\u00e9"]}',
    '{"contains":["e\\u0301","é"]}',
    '{"contains":["abc",1]}',
    '{"contains":[[1,2,3],2.0]}',
    '{"contains":[[[1],[2]],[2e0]]}',
    '{"contains":[5,5]}',
    '{"in":["b","abc"]}',
    '{"in":["a",{"a":1}]}',
    '{"in":[[],[[]]]}',
    '{"in":["$args.x","$args.v"]}',
    '{"in":[3.580,"$args.v"]}',
    '{"ends_with":["abc","bc"]}',
    '{"ends_with":["abc",""]}',
    '{"ends_with":["bc","abc"]}',
    '{"starts_with":["abc","abcd"]}',
    '{"starts_with":["😀","\\ud83d\\ude00"]}',
    '{"starts_with":[1,1]}',
    '{"ends_with":["$args.t","c"]}',
    # equality and order
    '{"eq":[{"a":1,"b":[2.0,{"c":null}]},{"b":[2,{"c":null}],"a":1e0}]}',
    '{"eq":[{"a":1},{"a":1,"b":2}]}',
    '{"eq":[{"a":1},{"b":1}]}',
    '{"eq":[[1,2],[2,1]]}',
    '{"eq":[[1,2],[1,2,3]]}',
    '{"eq":[[],{}]}',
    '{"eq":["1",1]}',
    '{"eq":[true,1]}',
    '{"eq":[false,null]}',
    '{"ne":[1,1.0]}',
    '{"ne":["$args.z",1]}',
    '{"eq":[{"a":null},{}]}',
    '{"eq":["$args.o",{"a":1,"b":2}]}',
    '{"gt":[1,0.9999999999999999999999999999999999]}',
    '{"lt":[-1,-0.9999999999999999999999999999999999]}',
    '{"gte":[0,-0]}',
    '{"lt":[-0,0e99999999999999999999]}',
    '{"lte":[1E+2,100]}',
    '{"gt":[123e-2,1.23]}',
    '{"lt":[-1e400,-1e399]}',
    '{"gt":[1e-400,0]}',
    '{"lt":[-1e-400,0]}',
    '{"eq":[0.1e1,1]}',
    '{"eq":[0.00012e4,12e-1]}',
    '{"eq":[18446744073709551615,18446744073709551616]}',
    '{"eq":[9007199254740993,9007199254740992]}',
    '{"eq":[0.1,0.10000000000000000555]}',
    '{"eq":[1e1,1e01]}',
    '{"eq":[1e+00000000000000000000000000000000,1]}',
    '{"lt":["$args.x",null]}',
    '{"gte":[[1],[1]]}',
    # the point's place carries and borrows through all digits
    '{"eq":[10e%s,1e1%s]}' % ("9" * 252, "0" * 252),
    '{"lt":[10e%s,1e1%s]}' % ("9" * 252, "0" * 251 + "1"),
    '{"gt":[11e%s,1e1%s]}' % ("9" * 252, "0" * 252),
    '{"eq":[0.1e-%s,1e-1%s]}' % ("9" * 250, "0" * 250),
    '{"eq":[0.1e1%s,1e%s]}' % ("0" * 250, "9" * 250),
    '{"eq":[0.01e1%s,1e%s8]}' % ("0" * 249, "9" * 248),
    '{"eq":[100e-1%s,1e-%s8]}' % ("0" * 249, "9" * 248),
    '{"eq":[10e-%s,1e-%s8]}' % ("9" * 250, "9" * 249),
    '{"lt":[-10e%s,-1e%s]}' % ("9" * 251, "9" * 251),
    '{"eq":[1e%s1,10]}' % ("0" * 252),
    '{"eq":[%s,1e250]}' % ("1" + "0" * 250),
    '{"eq":[0.%s1e246,1]}' % ("0" * 245),
    '{"lt":[%s,%s]}' % ("1" * 254 + "1", "1" * 254 + "2"),
    '{"eq":[0.%s,0.%s]}' % ("1" * 200, "1" * 200 + "0" * 53),
    # connectives
    "true",
    "false",
    '{"not":true}',
    '{"not":{"not":{"eq":["$args.z",1]}}}',
    '{"all":[true,{"eq":["$args.z",1]}]}',
    '{"any":[false,{"eq":["$args.z",1]}]}',
    '{"any":[{"eq":["$args.z",1]},{"eq":["$args.y",1]},{"eq":["$args.z",2]}]}',
    '{"all":[{"eq":["$args.b",1]},{"eq":["$args.B",1]},{"eq":["$args.aa",1]},{"eq":["$args.é",1]},{"eq":["$args.😀",1]},{"eq":["$args.\\uffff",1]}]}',
    '{"all":[{"eq":["$args.q\\"\\\\\\u0001\\u001f\\n",1]}]}',
    '{"all":[{"all":[]},{"any":[{"all":[]}]},{"not":{"any":[]}}]}',
    '{"all":[{"eq":["$foo",1]},{"eq":["$bar",1]}]}',
    '{"eq":["$args.z","$foo"]}',
    '{"eq":["$foo","$bar"]}',
]

WITHOUT_ID = [
    '{"eq":["$id",1]}',
    '{"exists":"$id"}',
    '{"any":[true,{"eq":["$id",1]}]}',
    '{"eq":[{"b":"$foo","a":"$id"},1]}',
    '{"eq":[{"b":"$id","a":"$foo"},1]}',
    '{"for_any":{"in":[1],"as":"id","that":{"eq":["$id",1]}}}',
    '{"all":[{"for_any":{"in":[1],"as":"id","that":{"eq":["$id",1]}}},{"eq":["$id",1]}]}',
    '{"for_any":{"in":[1],"as":"id","that":{"eq":["$id.x",1]}}}',
    '{"eq":["$id.x",1]}',
    '{"exists":"$from_state"}',
    '{"eq":["$from_state","from"]}',
]

KINDS = ["null", "true", "1", '"a"', '["a",1]', '{"a":1}', '"$args.zz"']
PAIRS = ["eq", "ne", "gt", "gte", "lt", "lte", "in", "contains", "starts_with", "ends_with"]


def matrix():
    """Every pair form on every two kinds of operands, each in its sheet."""
    for operator in PAIRS:
        for left in KINDS:
            for right in KINDS:
                yield sheet(f'{{"{operator}":[{left},{right}]}}', args="{}", fields="{}", old_fields="{}").encode()


def chain(binders, wraps, body):
    """Quantifiers inside each other, each over an operand in so many brackets, or in as many as the text has left there."""
    condition = body
    for level, (name, inner) in reversed(list(enumerate(binders))):
        depth = min(wraps, 64 - 1 - 2 * (level + 1))
        over = "[" * depth + f'"{inner}"' + "]" * depth
        condition = f'{{"for_any":{{"in":{over},"as":"{name}","that":{condition}}}}}'
    return condition


def wrapping(name, start, levels):
    return [(name, start)] + [(name, "$" + name)] * (levels - 1)


def deep():
    """Values nesting far deeper than the text, and 31 binders at once."""
    for levels in (2, 5, 9, 16, 24, 30):
        for body in ('{"eq":["$c","$c"]}', '{"ne":["$c","$c"]}', '{"contains":["$c","$c"]}'):
            yield chain(wrapping("c", "$args.o", levels), 64, body)
    for start in ("$args.o", "$args.v"):
        for levels in (3, 8, 14):
            binders = wrapping("c", "$args.o", levels) + wrapping("d", start, levels)
            yield chain(binders, 30, '{"eq":["$c","$d"]}')
            yield chain(binders, 30, '{"in":["$c",["$d","$c"]]}')
    yield chain(wrapping("c", "$args", 31), 64, '{"exists":"$c"}')
    yield chain(wrapping("c", "$args.x", 31), 1, "true")
    yield chain(wrapping("c", "$args.x", 30), 1, '{"eq":["$c",1]}')
    yield chain(wrapping("c", "$args.x", 30), 1, '{"eq":["$c.z",1]}')
    yield chain(wrapping("c", "$args.x", 15) + wrapping("d", "$args.z", 15), 1, '{"eq":["$c","$d"]}')


def conditions():
    """All conditions written by hand, each in its sheet."""
    for condition in TABLE + SLIPS + READINGS:
        yield sheet(condition).encode()
    for condition in WITHOUT_ID:
        yield sheet(condition, id=None, from_state=None).encode()
    for condition in deep():
        yield sheet(condition).encode()
