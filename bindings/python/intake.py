"""Decisions on JSON sheets, by the proved library libintake.so (include/intake.h says what each call answers).

    import intake
    decision = intake.Intake().decide(sheet)
    print(decision.number.name, decision.line)

As a program it decides the sheet on standard input.
"""

import ctypes
import ctypes.util
import enum
import os
import pathlib
import sys
import typing

WORK_WORDS = 16_384
OUTPUT_BYTES = 294_976
"""An output that no line exceeds (INTAKE_OUTPUT_BYTES of the header)."""
FOLDERS = ("/usr/local/lib", "/usr/lib", "/usr/lib/x86_64-linux-gnu")


class Number(enum.IntEnum):
    """What a call ended with."""

    ANSWERED = 0
    WORK_TOO_SHORT = 1
    SHEET_TOO_LONG = 2
    NOT_UTF8 = 3
    NOT_JSON = 4
    TOO_DEEP = 5
    NUMBER_TOO_LONG = 6
    TOO_MANY_NODES = 7
    REPEATED_NAME = 8
    NOT_A_SHEET = 9
    WRONG_SHAPE = 10
    NOT_CARRIED = 11
    NO_INPUT = 12
    UNKNOWN_EXPRESSION = 13
    NO_ID = 14
    PRECONDITION_FALSE = 15
    PRECONDITION_UNKNOWN = 16
    INVARIANT_FALSE = 17
    INVARIANT_UNKNOWN = 18
    NO_OUTCOME = 19
    GUARD_UNKNOWN = 20
    WRONG_STATE = 21
    NOT_A_SOURCE = 22
    LINE_TOO_LONG = 23


class Decision(typing.NamedTuple):
    """A call's number, and its line with LF, if it has one."""

    number: Number
    line: typing.Optional[bytes]

    def printed(self):
        """The line, or `(refused N)` where there is none."""
        return self.line or b"(refused %d)\n" % self.number


def found():
    """The library: in the folder that INTAKE_LIB_DIR names, where the system looks, or in a usual folder."""
    folder = os.environ.get("INTAKE_LIB_DIR")
    if folder:
        return str(pathlib.Path(folder) / "libintake.so")
    places = (pathlib.Path(folder) / "libintake.so" for folder in FOLDERS)
    path = ctypes.util.find_library("intake") or next((str(place) for place in places if place.exists()), None)
    if path is None:
        raise OSError("libintake.so is not found: give its path, or name its folder in INTAKE_LIB_DIR")
    return path


def loaded(path):
    """The library with the types of its functions."""
    library = ctypes.CDLL(path)
    lent = [ctypes.c_char_p, ctypes.c_size_t, ctypes.c_void_p, ctypes.c_size_t, ctypes.c_void_p, ctypes.c_size_t]
    for name in ("evaluate", "preconditions", "invariants", "select", "admit", "decide"):
        function = getattr(library, "intake_" + name)
        function.argtypes = ([ctypes.c_uint64] if name == "admit" else []) + lent
        function.restype = ctypes.c_uint64
    library.intake_version.argtypes = []
    library.intake_version.restype = ctypes.c_uint32
    return library


class Intake:
    """The library, and the memory that its calls are lent. Each thread needs an Intake of its own."""

    def __init__(self, path=None, output_bytes=OUTPUT_BYTES):
        self._library = loaded(path or found())
        self._work = (ctypes.c_uint32 * WORK_WORDS)()
        self._output = ctypes.create_string_buffer(output_bytes) if output_bytes else None
        self._output_bytes = output_bytes

    def evaluate(self, sheet):
        """The truth of the sheet's condition, and the names that it misses."""
        return self._call("evaluate", sheet)

    def preconditions(self, sheet):
        """Whether all preconditions are true."""
        return self._call("preconditions", sheet)

    def invariants(self, sheet):
        """Whether all invariants are true."""
        return self._call("invariants", sheet)

    def select(self, sheet):
        """The first eligible outcome whose guard is true or missing."""
        return self._call("select", sheet)

    def admit(self, place, sheet):
        """Whether the outcome at a place, from 0 on, is kept in the sheet's state."""
        if not 0 <= place < 2**64:
            raise ValueError("a place is from 0 to 2 ** 64 - 1")
        return self._call("admit", sheet, place)

    def decide(self, sheet):
        """The whole decision: preconditions, then the outcome selected, then its admission."""
        return self._call("decide", sheet)

    def version(self):
        """The library's version: 10,000 times the major number, 100 times the minor one, and the patch."""
        return self._library.intake_version()

    def _call(self, name, sheet, *place):
        function = getattr(self._library, "intake_" + name)
        sheet = bytes(sheet)
        answer = function(*place, sheet, len(sheet), self._work, WORK_WORDS, self._output, self._output_bytes)
        length = answer & 0xFFFFFFFF
        return Decision(Number(answer >> 32), ctypes.string_at(self._output, length) if length else None)


if __name__ == "__main__":
    sys.stdout.buffer.write(Intake().decide(sys.stdin.buffer.read()).printed())
