"""Records of calls with their expected answers, and the programs that make them.

A record is one line of eight fields with a tab between: call, place, work words, output bytes, form, sheet, number, line. The form is `text` where the
sheet stands as it is, and `hex` where it holds a byte that cannot stand in a field. The number is 0 where nothing is refused; the line is without its
LF, and `-` where there is none. A line of two fields, sheet and line, is a record of Evaluate.
"""

import pathlib
import re
import subprocess
from typing import NamedTuple, Optional

import reading

ROOT = pathlib.Path(__file__).resolve().parent.parent
PROGRAMS = ROOT / "target" / "differential" / "release"
CALLS = ["evaluate", "preconditions", "invariants", "select", "admit", "decide"]
WORK = 16384
OUTPUT = 65536
SPACED = bytes.maketrans(b"\n\r", b"  ")


class Record(NamedTuple):
    call: str
    place: int
    work: int
    output: int
    sheet: bytes
    number: int
    line: Optional[bytes]


def plain(sheet: bytes) -> bool:
    """Whether a sheet can stand in a field as it is."""
    try:
        sheet.decode("utf-8")
    except UnicodeDecodeError:
        return False
    return not any(byte < 32 for byte in sheet)


def written(record: Record) -> bytes:
    form, sheet = (b"text", record.sheet) if plain(record.sheet) else (b"hex", record.sheet.hex().encode())
    head = f"{record.call}\t{record.place}\t{record.work}\t{record.output}\t".encode()
    return head + form + b"\t" + sheet + b"\t" + str(record.number).encode() + b"\t" + (b"-" if record.line is None else record.line)


def parsed(text: bytes) -> Record:
    fields = text.split(b"\t")
    if len(fields) == 2:
        sheet, line = fields
        refused = re.match(rb"\(refused (\d+)", line)
        return Record("evaluate", 0, WORK, OUTPUT, sheet, int(refused[1]) if refused else 0, line)
    call, place, work, output, form, sheet, number, line = fields
    sheet = bytes.fromhex(sheet.decode()) if form == b"hex" else sheet
    return Record(call.decode(), int(place), int(work), int(output), sheet, int(number), None if line == b"-" else line)


def read(path) -> list:
    return [parsed(text) for text in pathlib.Path(path).read_bytes().split(b"\n")[:-1]]


def write(path, records) -> None:
    pathlib.Path(path).write_bytes(b"".join(written(record) + b"\n" for record in records))


def write_conditions(path, records) -> None:
    """Records of Evaluate on accepted sheets in two fields, the sheet and the line."""
    pathlib.Path(path).write_bytes(b"".join(record.sheet + b"\t" + record.line + b"\n" for record in records))


def build() -> None:
    subprocess.run(["cargo", "build", "--release", "--quiet", "-p", "oracle", "-p", "generate"], cwd=ROOT / "differential", check=True)


def generated(seed: int, count: int, shape: str) -> list:
    done = subprocess.run([PROGRAMS / "generate", str(seed), str(count), shape], stdout=subprocess.PIPE, check=True)
    return done.stdout.split(b"\n")[:-1]


def answered(calls) -> list:
    """The oracle's records for (call, place, sheet) with work and output enough. A sheet's newlines stand between its tokens, as spaces do."""
    texts = [f"{call} {place} ".encode() + sheet.translate(SPACED) for call, place, sheet in calls]
    done = subprocess.run([PROGRAMS / "oracle"], input=b"".join(text + b"\n" for text in texts), stdout=subprocess.PIPE, check=True)
    records = []
    for (call, place, sheet), answer in zip(calls, done.stdout.split(b"\n")[:-1], strict=True):
        number, line = answer.split(b" ", 1)
        records.append(Record(call, place, WORK, OUTPUT, sheet, int(number), None if line == b"-" else line))
    return records


def expected(questions) -> list:
    """The records for (call, place, work, output, sheet): reading by the model of the paper, the rest by the oracle, and 23 by the line's length."""
    numbers = [reading.refusal(sheet, work) for _, _, work, _, sheet in questions]
    accepted = [(call, place, sheet) for (call, place, _, _, sheet), number in zip(questions, numbers) if number == 0]
    answers = iter(answered(accepted))
    found = []
    for (call, place, work, output, sheet), number in zip(questions, numbers):
        line = None
        if number == 0:
            answer = next(answers)
            number, line = answer.number, answer.line
        if line is not None and len(line) + 1 > output:
            number, line = 23, None
        found.append(Record(call, place, work, output, sheet, number, line))
    return found


def histogram(records) -> str:
    """How often each answer occurs, by call."""
    counts: dict = {}
    for record in records:
        words = (record.line or b"").split(b" ")
        word = str(record.number)
        if record.number == 0:
            word = words[0].strip(b"()").decode()
            word = words[1].decode() if word == "truth" else word
        of_call = counts.setdefault(record.call, {})
        of_call[word] = of_call.get(word, 0) + 1
    rows = []
    for call in CALLS:
        if call in counts:
            row = sorted(counts[call].items(), key=lambda item: (item[0].isdigit(), item[0].zfill(3)))
            rows.append(f"  {call}: " + ", ".join(f"{word} {count}" for word, count in row))
    return "\n".join(rows)
