"""The six calls, on the sheets of examples/ and on a small one."""

import os
import pathlib
import re
import unittest

import intake
from intake import Decision, Number

ROOT = pathlib.Path(__file__).resolve().parent.parent.parent

# passes one rule and admits its second outcome; its condition misses a name
SHEET = b"""{"entity":"e","version":1,"args":{"v":2},"fields":{},"old_fields":{},"to_state":"b","state":"a","states":["a","b"],
    "condition":{"eq":["$args.w",1]},"preconditions":[{"assert":{"gt":["$args.v",1]}}],"invariants":[{"assert":false,"name":"i","message":"m"}],
    "outcomes":[{"name":"first","when":{"lt":["$args.v",1]}},{"name":"second"}]}"""


class Calls(unittest.TestCase):
    def setUp(self):
        self.intake = intake.Intake()

    def test_every_example_gives_its_line(self):
        sheets = sorted((ROOT / "examples").glob("*.json"))
        self.assertTrue(sheets)
        for sheet in sheets:
            with self.subTest(sheet=sheet.name):
                self.assertEqual(self.intake.decide(sheet.read_bytes()).printed(), sheet.with_suffix(".line").read_bytes())

    def test_each_call_answers(self):
        answers = {
            self.intake.evaluate(SHEET): b'(truth unknown (names "$args.w"))\n',
            self.intake.preconditions(SHEET): b"(passed)\n",
            self.intake.select(SHEET): b'(selected 1 "second")\n',
            self.intake.admit(0, SHEET): b'(admitted 0 "first")\n',
            self.intake.decide(SHEET): b'(admitted 1 "second")\n',
        }
        for answer, line in answers.items():
            self.assertEqual(answer, Decision(Number.ANSWERED, line))
        self.assertEqual(self.intake.invariants(SHEET), Decision(Number.INVARIANT_FALSE, b'(refused 17 0 "i" "m")\n'))
        self.assertEqual(self.intake.admit(2**64 - 1, SHEET), Decision(Number.NO_INPUT, None))
        self.assertRaises(ValueError, self.intake.admit, -1, SHEET)

    def test_no_line_past_the_output(self):
        line = b'(admitted 1 "second")\n'
        self.assertEqual(intake.Intake(output_bytes=len(line)).decide(SHEET).line, line)
        for size in (0, len(line) - 1):
            self.assertEqual(intake.Intake(output_bytes=size).decide(SHEET), Decision(Number.LINE_TOO_LONG, None))

    def test_any_bytes_are_answered(self):
        for sheet, number in ((b"", Number.NOT_JSON), (b"\xff", Number.NOT_UTF8), (b'"\0"', Number.NOT_JSON), (b" " * 32769, Number.SHEET_TOO_LONG)):
            self.assertEqual(self.intake.decide(sheet), Decision(number, None))

    def test_numbers_and_sizes_are_those_of_the_header(self):
        header = (ROOT / "include" / "intake.h").read_text()
        numbers = {name: int(number) for name, number in re.findall(r"^ +INTAKE_(\w+) = (\d+),?$", header, re.M)}
        sizes = dict(re.findall(r"^#define INTAKE_(\w+) (\d+)$", header, re.M))
        self.assertEqual({number.name: number.value for number in Number}, numbers)
        self.assertEqual((str(intake.WORK_WORDS), str(intake.OUTPUT_BYTES)), (sizes["WORK_WORDS"], sizes["OUTPUT_BYTES"]))

    def test_the_library_has_the_version(self):
        major, minor, patch = map(int, (ROOT / "VERSION").read_text().split("."))
        self.assertEqual(self.intake.version(), 10000 * major + 100 * minor + patch)

    @unittest.skipUnless("INTAKE_LIB_DIR" in os.environ, "INTAKE_LIB_DIR names no folder")
    def test_the_path_may_be_given(self):
        path = str(pathlib.Path(os.environ["INTAKE_LIB_DIR"]) / "libintake.so")
        self.assertEqual(intake.Intake(path).decide(b"{}"), Decision(Number.NOT_A_SHEET, None))


if __name__ == "__main__":
    unittest.main()
