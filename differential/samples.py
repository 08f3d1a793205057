"""Questions on generated sheets: (call, place, work, output, sheet)."""

import random

import faults
import records


def questions(sheets, calls):
    for index, sheet in enumerate(sheets):
        for call in calls:
            yield call, index % 3 if call == "admit" else 0, records.WORK, records.OUTPUT, sheet


def faulty(seed, sheets):
    draw = random.Random(seed)
    for sheet in sheets:
        sheet = faults.changed(draw, sheet)
        for call in draw.sample(records.CALLS, 2):
            yield call, 0, records.WORK, records.OUTPUT, sheet


def edges(seed, count):
    draw = random.Random(seed)
    for _ in range(count):
        yield "decide", 0, records.WORK, records.OUTPUT, faults.edge(draw)


def asked(seed, count, shape):
    if shape == "edge":
        return list(edges(seed, count))
    if shape == "faulty":
        return list(faulty(seed, records.generated(seed, count, "mixed")))
    calls = records.CALLS if shape == "mixed" else ["evaluate"]
    return list(questions(records.generated(seed, count, shape), calls))
