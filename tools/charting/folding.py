"""Folds long runs of rows of the same kind, so that a chart of many frames can be read.

Rows are of the same kind where the same things stand in them, numbers aside. A run repeats one row, or a pattern of up to MOST_ROWS rows. Its first
pattern and its last stay; a fold stands for those between. A row is never folded in which something singular stands: a frame that the line lost,
repeated or altered, a faulty one, the connection, a release.
"""
from dataclasses import dataclass

from .model import PUT

MOST_ROWS = 16
SINGULAR = ("connected", "released", "up", "refused", "release", "call", "answer", "ended", "fault", "stalled", "full", "unserved", "end", "remark")


@dataclass(frozen=True)
class Fold:
    """The rows from `first` to `last` are folded."""

    first: int
    last: int


def kinds_of(chart):
    """A number for each row: equal ones where the rows are of the same kind, and one of its own for a singular row."""
    things = [[] for _ in range(chart.rows)]
    for flight in chart.flights:
        plain = not (flight.marks or flight.faulty or flight.origin == PUT)
        things[flight.row].append((flight.side, flight.kind, flight.again) if plain else None)
        for row in [mark.row for mark in flight.marks] + ([flight.end] if flight.end not in (None, flight.row) else []):
            things[row].append((flight.side, "end", flight.kind) if plain else None)
    for note in chart.notes:
        things[note.row].append(None if note.word in SINGULAR else (note.side, note.word, "note"))
        if note.more:
            things[note.row + 1].append(None)
    for band in chart.bands:
        things[band.row].append(None if band.word in SINGULAR else (band.word, "band"))
    numbers, kinds = {}, []
    for row, found in enumerate(things):
        key = ("singular", row) if None in found else tuple(found)
        kinds.append(numbers.setdefault(key, len(numbers)))
    return kinds


def folds_of(chart, most):
    """The folds of a chart, from above: of runs of which more than `most` rows would be hidden. None where `most` is 0."""
    if not most:
        return []
    kinds, folds, row = kinds_of(chart), [], 0
    lengths = range(1, MOST_ROWS + 1)
    ends = [None] + [_ends(kinds, length) for length in lengths]
    while row < len(kinds):
        length = max(lengths, key=lambda length: ends[length][row] - row - 2 * length)
        hidden = ends[length][row] - row - 2 * length
        hidden -= hidden % length
        if hidden > most:
            folds.append(Fold(row + length, row + length + hidden - 1))
            row += length + hidden
        else:
            row += 1
    return folds


def _ends(kinds, length):
    """For each row the end of the run that begins there and repeats a pattern of this many rows."""
    ends = [len(kinds)] * len(kinds)
    for row in range(len(kinds) - length - 1, -1, -1):
        ends[row] = ends[row + 1] if kinds[row] == kinds[row + length] else row + length
    return ends
