"""Draws a chart as SVG: the two ends as lifelines, what users did and ends told beside them, frames between them.

A frame leaves its end on a level line, under what it carries. Where it is given over at once the line goes straight to the other end; where it
waited it sinks in the middle, which stands for the line between the ends, down to the row in which it arrived. So no line crosses a text.
"""
import datetime
from dataclasses import dataclass
from xml.sax.saxutils import escape

from decoding.sources import printable

from .folding import folds_of
from .model import CHANGE, DELAY, LOSS, LOST, OTHER, PUT, REPEAT, SENT, TAKEN, UNTOLD, WAITS

NOTES, HALF, GUTTER, NUMBERS = 228, 282, 64, 40
ROW, FOLD, TOP, FOOT, TIMES = 22, 34, 92, 44, 18
LABEL, MARKED, NOTED = 50, 45, 32
SIGN = {"e": 1, "r": -1}
# A moment from 1971 on is taken as one of a clock that counts from 1970; a calendar ends before moments do.
LEAST_OF_CLOCKS, MOST_OF_CALENDARS = 31_536_000_000, 253_402_300_799_999

STYLE = """
text{font:12px Arial,Helvetica,'Liberation Sans',sans-serif;fill:#111}
.title{font-size:17px;font-weight:bold}.source,.small,.remark{font-size:11px;fill:#555}.number{font-size:9px;fill:#888}
.label,.mark{paint-order:stroke;stroke:#fff;stroke-width:3px;stroke-linejoin:round}.mark{fill:#8a1c1c;font-style:italic}
.frame path,.key path{fill:none;stroke-width:1.4}.frame .head,.key .head{fill:#222}.frame .open{fill:#fff}
.e path{stroke:#174a7c}.e .head{fill:#174a7c;stroke:#174a7c}.e .open{fill:#fff}.e .label{fill:#123a61}
.r path{stroke:#7a4a00}.r .head{fill:#7a4a00;stroke:#7a4a00}.r .open{fill:#fff}.r .label{fill:#5e3900}
.again path{stroke-dasharray:6 3}.frame .head,.frame .dot,.frame .sign,.key .head,.key .sign{stroke-dasharray:none}
.faulty path{stroke-dasharray:2 3}.faulty .label{fill:#8a1c1c}
.frame .sign,.key .sign{stroke:#b00020;stroke-width:2.2;fill:none}.frame .dot,.key .dot{fill:#fff}
.life{stroke:#999;fill:none}.gone{stroke-dasharray:2 4}.alive{fill:#c9d3dd;stroke:#777;stroke-width:.7}
.end{fill:#f1f4f7;stroke:#555}.name{font-weight:bold;text-anchor:middle}
.told path,.user path{stroke:#444;fill:none}.told .head,.user .head{fill:#444}.strong{font-weight:bold}.more{font-size:11px;fill:#444}
.tick{stroke:#888;stroke-dasharray:1 3;fill:none}.fold rect{fill:#eee}.fold path{stroke:#999;fill:none}.fold text{font-style:italic;fill:#333}
.found path{stroke-width:3.2}.found text{font-weight:bold}.found rect{fill:#ffe9a8}
""".strip()
STRONG = ("connected", "released", "up")


@dataclass
class Layout:
    """Where columns and rows stand."""

    margin: int
    heights: list
    bottom: int

    def __post_init__(self):
        self.ends = {"e": self.margin + NOTES, "r": self.margin + NOTES + 2 * HALF + GUTTER}
        self.middle = self.margin + NOTES + HALF + GUTTER // 2
        self.width = self.ends["r"] + NOTES + 10

    def near(self, side):
        """The edge of the middle on the side of this end."""
        return self.middle - SIGN[side] * GUTTER // 2


def text(x, y, words, name, anchor=""):
    place = f' text-anchor="{anchor}"' if anchor else ""
    return f'<text x="{x}" y="{y}" class="{name}"{place}>{escape(printable(words))}</text>'


def cut(words, most):
    return words if len(words) <= most else words[:most - 2].rstrip() + ".."


def head(x, y, sign, name="head"):
    """An arrow's head whose tip is here, and which points to the right where the sign is 1."""
    return f'<path class="{name}" d="M{x} {y}l{-8 * sign} -3.5v7z"/>'


def _ring(x, y):
    return f'<path class="dot" d="M{x - 4} {y}a4 4 0 1 0 8 0a4 4 0 1 0 -8 0"/>'


def _plus(x, y):
    return f'<path class="sign" d="M{x - 6} {y}h12m-6 -6v12"/>'


class Drawing:
    """The SVG of one chart. `places` tells behind the drawing under which id each frame is seen: its own or that of a fold."""

    def __init__(self, chart, most):
        self.chart = chart
        self.id = chart.name.replace(" ", "-")
        self.folds = folds_of(chart, most)
        self.folded = {}
        for number, fold in enumerate(self.folds):
            for row in range(fold.first, fold.last + 1):
                self.folded[row] = number
        self.hidden = [[] for _ in self.folds]
        for flight in chart.flights:
            if flight.row in self.folded:
                self.hidden[self.folded[flight.row]].append(flight)
        widest = max((len(words) for _, words in chart.moments), default=0)
        heights, bottom = self._heights()
        self.at = Layout(NUMBERS + 7 * widest, heights, bottom)
        self.places = []

    def _heights(self):
        """The height of each row; those of a fold share one."""
        heights, y, last = [], TOP, None
        for row in range(self.chart.rows):
            fold = self.folded.get(row)
            if fold is None:
                y += ROW if last is None else FOLD
            elif fold != last:
                y += FOLD
            last = fold
            heights.append(y)
        return heights, y + ROW

    def y(self, row):
        return self.at.heights[row]

    def lines(self, style=True):
        """The text of the SVG, piece by piece; `style` False leaves the style out, for a page that has it."""
        self.places = []
        width, height = self.at.width, self.at.bottom + FOOT + (TIMES if self._times() else 0)
        yield f'<svg xmlns="http://www.w3.org/2000/svg" id="{self.id}" width="{width}" height="{height}" viewBox="0 0 {width} {height}">'
        if style:
            yield f"<style>{STYLE}</style>"
        yield f'<rect width="{width}" height="{height}" fill="#fff"/>'
        yield from self._heading()
        for side in "er":
            yield from self._lifeline(side)
        yield from self._margin()
        yield from self._bands()
        for number, fold in enumerate(self.folds):
            yield self._fold(number, fold)
        for number, flight in enumerate(self.chart.flights):
            yield from self._flight(number, flight)
        for note in self.chart.notes:
            if note.row not in self.folded:
                yield self._note(note)
        yield from self._legend()
        if self._times():
            yield text(self.at.margin, self.at.bottom + FOOT, self._times(), "small")
        yield "</svg>"

    def _times(self):
        """What T1 of each end is, as far as frames that come again tell it."""
        found = [(self.chart.ends[side], times) for side, times in self.chart.times().items() if times]
        spans = [f"{name} {min(times):,} ms" if min(times) == max(times) else f"{name} {min(times):,} to {max(times):,} ms" for name, times in found]
        return "" if not spans else "T1 by the frames that come again: " + ", ".join(f"{span} ({len(times)})" for span, (_, times) in zip(spans, found))

    def _heading(self):
        chart = self.chart
        yield text(12, 24, f"{chart.name}: {chart.ends['e']} and {chart.ends['r']}", "title")
        yield text(12, 42, chart.source + self._begin(), "source")
        for side in "er":
            x = self.at.ends[side]
            yield f'<rect class="end" x="{x - 80}" y="{TOP - 36}" width="160" height="22" rx="3"/>'
            yield text(x, TOP - 21, chart.ends[side] + (" (recorded)" if side == chart.recorded else ""), "name")

    def _begin(self):
        """When the first moment was, where that isn't 0: in UTC where the moments count from 1970."""
        first = self.chart.first_moment
        if not first:
            return ""
        if first < LEAST_OF_CLOCKS:
            return f" Its first moment is {first:,} ms."
        at = datetime.datetime(1970, 1, 1) + datetime.timedelta(milliseconds=min(first, MOST_OF_CALENDARS))
        return f" Its first moment is {at:%Y-%m-%d %H:%M:%S}.{first % 1000:03} UTC."

    def _lifeline(self, side):
        """A thin line; a bar while the end is up or connected; dotted behind its release."""
        x, bottom = self.at.ends[side], self.at.bottom
        rows = {note.word: self.y(note.row) for note in reversed(self.chart.notes) if note.side == side and note.word in STRONG}
        gone = rows.get("released", bottom)
        alive = min(rows.get("connected", bottom), rows.get("up", bottom))
        yield f'<path class="life" d="M{x} {TOP - 14}V{gone}"/>'
        if alive < gone:
            yield f'<rect class="alive" x="{x - 3}" y="{alive}" width="6" height="{gone - alive}"/>'
        if gone < bottom:
            yield f'<path class="life gone" d="M{x} {gone}V{bottom}"/>'

    def _margin(self):
        """Moments, and the number of the first line of the text that stands in each row."""
        yield text(self.at.margin - 8, TOP - 21, "line", "number", "end")
        lines = {}
        for thing in [flight for flight in self.chart.flights if flight.origin == SENT] + self.chart.notes:
            if thing.line is not None and thing.row not in self.folded:
                lines[thing.row] = min(thing.line, lines.get(thing.row, thing.line))
        for row, line in sorted(lines.items()):
            yield text(self.at.margin - 8, self.y(row) + 3, str(line), "number", "end")
        for row, words in self.chart.moments:
            if row < self.chart.rows and row not in self.folded:
                yield text(8, self.y(row) + 4, words, "small")

    def _bands(self):
        for band in self.chart.bands:
            if band.row in self.folded:
                continue
            y = self.y(band.row)
            if band.word == "tick":
                yield f'<path class="tick" d="M{self.at.ends["e"] - 18} {y}H{self.at.ends["r"]}"/>'
                yield text(self.at.ends["e"] - 24, y + 4, band.text, "small", "end")
            else:
                yield text(self.at.middle, y + 4, band.text, "remark", "middle")

    def _fold(self, number, fold):
        """A grey band with what it stands for."""
        y, left, right = self.y(fold.first), self.at.ends["e"], self.at.ends["r"]
        words = self._folded_words(number, fold)
        return (f'<g class="fold" id="{self.id}-fold-{number}"><rect x="{left - 60}" y="{y - 11}" width="{right - left + 120}" height="22" rx="4"/>'
                + text(self.at.middle, y + 4, words, "", "middle") + "</g>")

    def _folded_words(self, number, fold):
        counts = {"e": 0, "r": 0}
        lines = []
        for flight in self.hidden[number]:
            counts[flight.side] += flight.origin == SENT
            lines += [flight.line] if flight.line is not None else []
        frames = [f"{counts[side]:,} frames of the {name}" for side, name in (("e", "engine"), ("r", "RBC")) if counts[side]]
        span = f", lines {min(lines)} to {max(lines)}" if lines else ""
        return f"{fold.last - fold.first + 1:,} rows like those around: {' and '.join(frames) or 'no frames'}{span}"

    # Frames

    def _flight(self, number, flight):
        """A frame, unless all of it is folded."""
        last = flight.last_row
        fold = self.folded.get(flight.row)
        if fold is not None and self.folded.get(last) == fold:
            self.places.append((flight, f"{self.id}-fold-{fold}"))
            return
        name = f"{self.id}-frame-{number}"
        self.places.append((flight, name))
        kinds = ["frame", flight.side] + ["again"] * flight.again + ["faulty"] * flight.faulty
        yield f'<g class="{" ".join(kinds)}" id="{name}"><title>{escape(self._title(flight))}</title>'
        yield f'<path d="{self._path(flight)}"/>' + self._tip(flight)
        for mark in flight.marks:
            yield self._mark(flight, mark)
        yield self._label(flight) + self._timer(flight) + "</g>"

    def _title(self, flight):
        whence = f"line {flight.line}, " if flight.line is not None else ""
        timer = "" if flight.after is None else f"\nsent again after T1 had run for {flight.after:,} ms"
        return f"{whence}from {flight.side}: {flight.label}{timer}\n{flight.octets.hex()}"

    def _timer(self, flight):
        """How long T1 ran before a frame that comes again, where its row is free for it."""
        if flight.after is None or any(mark.row == flight.row for mark in flight.marks):
            return ""
        other = OTHER[flight.side]
        return text(self.at.near(other) - SIGN[other] * 4, self.y(flight.row) - 5, f"T1 ran {flight.after:,} ms", "small", self._anchor(other))

    def _path(self, flight):
        """The way of a frame: level, down through the middle, level."""
        at, side, y = self.at, flight.side, self.y(flight.row)
        sent = flight.origin == SENT
        way = [f"M{at.ends[side] if sent else at.middle} {y}"]
        rows = [mark.row for mark in flight.marks]
        below = [self.y(row) for row in rows + ([flight.end] if flight.end is not None else []) if self.y(row) != y]
        if sent and (below or flight.fate in (LOST, WAITS)):
            marked = not below or any(self.y(row) == y for row in rows)
            way.append(f"H{at.middle if marked else at.near(side)}")
        arrives = flight.fate in (TAKEN, UNTOLD)
        for place in dict.fromkeys(below[:-1] if arrives else below):
            way.append(f"L{self._stop(flight, place)} {place}")
        if arrives:
            end = self.y(flight.end)
            way.append(f"L{at.near(OTHER[side])} {end}" if end != y else "")
            way.append(f"H{at.ends[OTHER[side]] - SIGN[side] * 2}")
        return "".join(way)

    def _stop(self, flight, y):
        """Where in the middle a frame is at a height at which the line did something to it: what was lost behind others falls at the edge."""
        waited = flight.fate == LOST and y == self.y(flight.end) != self.y(flight.row) and flight.origin == SENT
        return self.at.near(flight.side) + 14 * SIGN[flight.side] if waited else self.at.middle

    def _tip(self, flight):
        """How a frame ends: a head, a cross, or a ring where it still waits."""
        begin = _plus(self.at.middle, self.y(flight.row)) if flight.origin == PUT else ""
        if flight.fate in (TAKEN, UNTOLD):
            x = self.at.ends[OTHER[flight.side]]
            return begin + head(x - SIGN[flight.side], self.y(flight.end), SIGN[flight.side], "head" if flight.fate == TAKEN else "head open")
        y = self.y(flight.last_row)
        x = self._stop(flight, y)
        if flight.fate == LOST:
            return begin + f'<path class="sign" d="M{x - 6} {y - 6}l12 12m0 -12l-12 12"/>'
        words = text(self.at.near(OTHER[flight.side]), y + 4, "still waits at the end", "mark", self._anchor(OTHER[flight.side]))
        return begin + _ring(x, y) + words

    def _anchor(self, side):
        """How a text begins or ends at a place in this end's half of the chart."""
        return "end" if side == "e" else "start"

    def _mark(self, flight, mark):
        """What the line did to a frame: a sign in the middle and a word in the other end's half."""
        x, y, other = self.at.middle, self.y(mark.row), OTHER[flight.side]
        sign = {LOSS: "", DELAY: "", REPEAT: _ring(x, y), CHANGE: f'<path class="sign" d="M{x} {y - 6}l6 6l-6 6l-6 -6z"/>'}[mark.what]
        lower = 4 if mark.what == LOSS else -5
        return sign + text(self.at.near(other) - SIGN[other] * 4, y + lower, cut(mark.text, MARKED), "mark", self._anchor(other))

    def _label(self, flight):
        """What a frame carries: at the end that sent it, or behind the middle where the line made it."""
        y, side = self.y(flight.row), flight.side
        if flight.origin == SENT:
            return text(self.at.ends[side] + SIGN[side] * 10, y - 5, cut(flight.label, LABEL), "label", self._anchor(OTHER[side]))
        x = self.at.near(OTHER[side]) + SIGN[side] * 4
        if flight.origin == PUT:
            return text(x, y - 5, cut(flight.label, MARKED), "label", self._anchor(OTHER[side]))
        if flight.end is None or flight.end == flight.row or flight.fate != TAKEN:
            return ""
        return text(x, self.y(flight.end) - 5, cut("again: " + flight.label, MARKED), "label", self._anchor(OTHER[side]))

    # Notes

    def _note(self, note):
        """What a user did, with an arrow to its end, or what an end told, with one from it."""
        y, sign = self.y(note.row), -SIGN[note.side]
        x = self.at.ends[note.side] + sign * 4
        far = x + sign * 18
        tip = head(far, y, sign) if note.told else head(x, y, -sign)
        name = "told" if note.told else "user"
        words = text(far + sign * 5, y + 4, cut(note.text, NOTED), "strong" if note.word in STRONG else "", self._anchor(note.side))
        more = text(far + sign * 5, y + 18, cut(note.more, NOTED + 4), "more", self._anchor(note.side)) if note.more else ""
        return f'<g class="{name}"><path d="M{x} {y}H{far}"/>{tip}{words}{more}</g>'

    # The legend

    def _legend(self):
        """What the signs mean, of those that are there."""
        flights = self.chart.flights
        x, y = self.at.margin, self.at.bottom + 22
        line = f'<path d="M0 {y}h30"/>'
        entries = [
            (any(f.fate == TAKEN for f in flights), "e", line + head(30, y, 1), "arrived"),
            (any(f.fate == UNTOLD for f in flights), "e", line + head(30, y, 1, "head open"), "sent; whether it arrived isn't told"),
            (any(f.fate == LOST for f in flights), "e", f'<path d="M0 {y}h24"/><path class="sign" d="M18 {y - 6}l12 12m0 -12l-12 12"/>', "lost"),
            (any(f.origin == PUT for f in flights), "e", f'<path d="M8 {y}h22"/>{_plus(8, y)}{head(30, y, 1)}', "put on the line"),
            (any(f.again for f in flights), "e again", line + head(30, y, 1), "comes again"),
            (any(f.faulty for f in flights), "e faulty", line + head(30, y, 1), "faulty"),
        ]
        for there, kind, sign, words in entries:
            if there:
                yield f'<g class="key {kind}" transform="translate({x} 0)">{sign}{text(38, y + 4, words, "small")}</g>'
                x += 62 + 6 * len(words)
