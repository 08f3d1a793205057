#!/usr/bin/env python3
"""seeds.py FOLDER: writes the inputs that the target starts from: every sheet of examples/ in all six calls, the stored calls of crates/replay/stdin, and
searches of texts, which go by how long a part is.

An input is four bytes and the sheet: see `asked_by` in calls.c.
"""

import json
import pathlib
import sys

sys.dont_write_bytecode = True
sys.path.insert(0, str(pathlib.Path(__file__).resolve().parent.parent))
import records

EXAMPLES = records.ROOT / "examples"
WORDS = {records.WORK: 0} | {words: 240 + place for place, words in enumerate([0, 1, 16383, 16385, 20000, 32768])}
PIECES = ["a", "\\n", "\\u0061", "\\u00e9", "\\u20ac", "\\ud83d\\ude00"]


def head(call, place=0, words=records.WORK, room=records.OUTPUT):
    """The four bytes; a work table or output that they cannot say becomes the usual one, a place the last small one."""
    return bytes([records.CALLS.index(call), min(place, 127), WORDS.get(words, 0), 128 + room if room < 128 else 0])


def search(form, whole, part):
    """Evaluate of a text form on two texts that are readings, or on one reading twice."""
    sheet = json.loads((EXAMPLES / "rebuild.json").read_text())
    sheet |= {"args": {"a": "WHOLE", "b": "PART"}, "condition": {form: ["$args.a", "$args.a" if part is None else "$args.b"]}}
    return head("evaluate") + json.dumps(sheet).replace("WHOLE", whole).replace("PART", part or "").encode()


def searches():
    for form in ("contains", "starts_with", "ends_with"):
        for piece in PIECES:
            for part in (piece, piece + "ab" * 64):
                yield search(form, "ab" + part, part)
                yield search(form, part + "ab", part)
        yield search(form, "a" * 16385, None)
        yield search(form, "a", "a" * 16385)


def inputs():
    for path in sorted(EXAMPLES.glob("*.json")):
        for call in records.CALLS:
            yield head(call) + path.read_bytes()
    for record in records.read(records.ROOT / "crates" / "replay" / "stdin"):
        yield head(record.call, record.place, record.work, record.output) + record.sheet
    yield from searches()


def main(folder):
    folder = pathlib.Path(folder)
    folder.mkdir(parents=True, exist_ok=True)
    for place, data in enumerate(inputs()):
        (folder / f"{place:04}").write_bytes(data)


if __name__ == "__main__":
    main(*sys.argv[1:])
