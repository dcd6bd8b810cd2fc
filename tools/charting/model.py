"""What a sequence chart holds.

A chart is a list of rows, from above. Frames go between the two ends, notes stand beside them, bands lie across.
"""
from dataclasses import dataclass, field
from typing import Dict, List, Optional, Tuple

OTHER = {"e": "r", "r": "e"}
# The column between the ends; the columns beside them are named as their sides.
LINE = "line"

# Where a frame comes from: an end, the line that repeats one, a step that puts one there.
SENT, COPY, PUT = "sent", "copy", "put"
# What becomes of it: given to the other end, lost, still on the line at the end; or the text doesn't tell.
TAKEN, LOST, WAITS, UNTOLD = "taken", "lost", "waits", "untold"
# What the line does to a frame that waits on it.
LOSS, REPEAT, CHANGE, DELAY = "loss", "repeat", "change", "delay"


@dataclass(slots=True)
class Mark:
    """What the line did to a frame: in which row, what, and a word on it."""

    row: int
    what: str
    text: str


@dataclass(slots=True)
class Flight:
    """A frame on the line, in the direction of the end `side`.

    `label` says what it carries, `kind` the same without numbers; `again` that the end sent it before, `faulty` that the other end can't take it
    as it is. `row` is where it begins, `end` where it arrives or ends. `line` is its line of the text. `after` tells how many milliseconds T1 ran where that is
    why it comes again.
    """

    side: str
    octets: bytes
    row: int
    label: str = ""
    kind: str = ""
    line: Optional[int] = None
    origin: str = SENT
    fate: str = WAITS
    end: Optional[int] = None
    again: bool = False
    faulty: bool = False
    after: Optional[int] = None
    marks: List[Mark] = field(default_factory=list)

    @property
    def last_row(self):
        """The last row in which something happened to it."""
        if self.end is not None:
            return self.end
        return self.marks[-1].row if self.marks else self.row


@dataclass(slots=True)
class Note:
    """What a user gave to its end, or what the end told: the text, more words for a second line, and whether it is the end that tells."""

    row: int
    side: str
    word: str
    text: str
    more: str = ""
    told: bool = True
    line: Optional[int] = None


@dataclass(slots=True)
class Band:
    """A line across: a tick, or a remark on the whole link."""

    row: int
    word: str
    text: str


@dataclass
class Chart:
    """One link or connection. `recorded` is the end whose recording it is, where the other end's isn't there."""

    name: str
    source: str = ""
    ends: Dict[str, str] = field(default_factory=lambda: {"e": "engine", "r": "RBC"})
    recorded: Optional[str] = None
    rows: int = 0
    flights: List[Flight] = field(default_factory=list)
    notes: List[Note] = field(default_factory=list)
    bands: List[Band] = field(default_factory=list)
    moments: List[Tuple[int, str]] = field(default_factory=list)
    first_moment: Optional[int] = None
    newest_moment: Optional[int] = None
    shown_moment: Optional[int] = None
    used: set = field(default_factory=set)

    @property
    def last(self):
        """The lowest row, -1 where there is none."""
        return self.rows - 1

    def place(self, column, share=False):
        """The row of a thing in a column, which is a side's or the line's: the lowest row, where it may share that and the column is free there,
        or a new one."""
        if not (share and self.rows and column not in self.used):
            self.rows += 1
            self.used.clear()
        self.used.add(column)
        return self.last

    def note(self, side, word, text, more="", told=True, share=False, line=None):
        """Adds a note at an end; one of two lines takes a second row."""
        self.notes.append(Note(self.place(side, share), side, word, text, "", told, line))
        if more:
            self.add_line(self.notes[-1], more)

    def add_line(self, note, words):
        """A second line of a note takes a second row."""
        note.more = words
        if note.row == self.last:
            self.place(note.side)

    def band(self, word, text):
        """Adds a line across."""
        self.bands.append(Band(self.place(LINE), word, text))
        self.used.update(OTHER)

    def moment(self, moment):
        """It is this moment in the next row: it is shown where it is another one, counted from the first, with the time behind the one that is shown before."""
        if moment is None or moment == self.newest_moment:
            return
        if self.moments and self.moments[-1][0] == self.rows:
            self.moments.pop()
        else:
            self.shown_moment = self.newest_moment
        self.first_moment = moment if self.first_moment is None else self.first_moment
        since = "" if self.shown_moment is None else f" {moment - self.shown_moment:+,}"
        self.newest_moment = moment
        self.moments.append((self.rows, f"{moment - self.first_moment:,} ms{since}"))

    def times(self):
        """How long T1 of each side ran, as its frames that come again tell, in order."""
        return {side: [flight.after for flight in self.flights if flight.side == side and flight.after is not None] for side in OTHER}
