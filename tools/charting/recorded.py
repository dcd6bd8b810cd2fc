"""Charts of a text by itself: what a drill prints, a trace or recording, a tap; what a relay prints is drawn by `relayed`.

What a drill prints tells when an end sent a frame, and not whether it came: that the line lost or repeated one is a step of the drill file. A
connection of a trace tells what came to its own end and what that end sent. A tap tells what came to both.
"""
from decoding import conversation, framing, sources, timing

from . import labels
from .model import LINE, OTHER, TAKEN, UNTOLD, Chart, Flight

SOURCES = {sources.DRILL: "What a drill printed: a frame stands where it was sent; whether the line lost or repeated it isn't told here.",
           sources.TRACE: "A recording of one end: what came to it and what it sent; whether what it sent arrived isn't told here.",
           sources.TAP: "A tap: what each end sent and the other end got."}


AGAIN, GAP = "again", "gap"


class Decoder:
    """The frames of one link, decoded in order, with the words for a chart. Where `whole` is set each piece is one frame from flag to flag, as a
    drill prints them; one that isn't is kept in `bad`."""

    def __init__(self, level, modulo=None, whole=False, selective=False):
        self.level, self.whole = level, whole
        self.talk = conversation.Conversation(modulo, level != "link", selective)
        self.before = {"e": {}, "r": {}}
        self.bad = []

    def flights(self, item):
        """The frames that this piece of octets closes, each as what was decoded (None where it is no frame) and as a flight without its row."""
        if self.level == "safe":
            words, kind, fault = labels.sapdu_of(item.octets)
            return [(None, self._faulty(item, words, kind) if fault else Flight(item.side, item.octets, 0, words, kind, item.line))]
        if not self.whole:
            return [(seen, self._flight(seen, item)) for seen in self.talk.feed(item.side, item.octets, item.line)]
        frames = framing.frames_of(item.octets)
        if len(frames) != 1 or labels.spelled(frames[0], item.octets) is not item.octets:
            return [(None, self._faulty(item, "not one frame from flag to flag", "bad"))]
        if not frames[0].intact:
            return [(None, self._faulty(item, frames[0].verdict, "bad"))]
        seen = self.talk.look(item.side, frames[0], item.line)
        return [(seen, self._flight(seen, item))]

    def _faulty(self, item, words, kind):
        self.bad.append(sources.BadLine(item.line, f"a frame that is none: {words}"))
        return Flight(item.side, item.octets, 0, words, kind, item.line, faulty=True)

    def _flight(self, seen, item):
        order = self._order(seen)
        words, kind = labels.frame_words(seen, self.level, order)
        octets = labels.spelled(seen.frame, item.octets)
        return Flight(item.side, octets, 0, words, kind, item.line, again=order == AGAIN, faulty=seen.fault is not None)

    def _order(self, seen):
        """Whether a frame was sent before: a set-up frame, or an I frame that isn't the next one. An I frame that is neither stands behind a gap."""
        if seen.control is None or seen.control.name not in ("I", "SABM", "SABME"):
            return ""
        key = seen.control.send if seen.control.name == "I" else seen.control.name
        before, self.before[seen.side][key] = self.before[seen.side].get(key), seen.information
        if not seen.new and before == seen.information:
            return AGAIN
        return GAP if seen.repeated else ""


class Drawer:
    """Draws the chart of one link or connection from its lines alone."""

    def __init__(self, link, kind):
        self.link, self.kind = link, kind
        self.chart = Chart(link.name, SOURCES[kind], recorded=link.role)
        self.decoder = Decoder(link.level, whole=kind == sources.DRILL)
        self.timer = timing.Timer()
        self.open_side = None  # the end whose event is being told: what it tells may share the row of that event
        name_end(self.chart, "e", link.engine)
        name_end(self.chart, "r", link.rbc)

    def draw(self):
        for item in self.link.items:
            self.chart.moment(item.moment)
            if item.kind == sources.OCTETS:
                self._octets(item)
            elif item.side is None or item.word == "tick":
                self.open_side = item.side
                self.chart.band(item.word, remark_words(item))
            elif item.kind == sources.EVENT:
                self.open_side = item.side
                self.chart.note(item.side, item.word, labels.event_words(item.word, item.words, item.octets), told=False, line=item.line)
            else:
                self._outcome(item)
        if not self.chart.flights and self.kind == sources.DRILL:
            self.chart.band("remark", "no frames are printed: the drill file has no line `set show 1`")
        return self.chart

    def _octets(self, item):
        came = self.kind == sources.TAP or item.own is False
        share = not came and item.side == self.open_side
        flights = self.decoder.flights(item)
        for seen, flight in flights:
            flight.after = self._after(seen, item)
            flight.row = flight.end = self.chart.place(LINE, share)
            flight.fate = TAKEN if came else UNTOLD
            self.chart.flights.append(flight)
        if item.own is None or len(flights) > 1 and came:
            self.open_side = None
        elif came:
            self.open_side = OTHER[item.side]

    def _after(self, seen, item):
        """How long T1 of the recorded end ran, where a frame that it sends comes again for that."""
        if seen is None or item.moment is None or item.own is None:
            return None
        return self.timer.sent(seen, item.moment) if item.own else self.timer.heard(seen, item.moment, self.decoder.talk.modulo)

    def _outcome(self, item):
        share = item.side == self.open_side
        last = self.chart.notes[-1] if self.chart.notes else None
        text, more = labels.outcome_words(item.word, item.words, item.octets)
        if item.word == "connected":
            name_end(self.chart, OTHER[item.side], int(item.words[0]))
        if share and item.word in ("taken", "none", "refused") and last is not None and not last.told:
            self._joined(last, item.word, text)
            return
        self.chart.note(item.side, item.word, text, more, share=share and self.kind == sources.TRACE, line=item.line)
        self.open_side = item.side

    def _joined(self, note, word, told):
        """What a user did, with what came of it."""
        if word == "refused":
            self.chart.add_line(note, told)
        else:
            note.text = told


TURNED_AWAY = {"full": "turned away, while {} trains were there", "unserved": "turned away, since {} connections were served before"}


def remark_words(item):
    """A tick, a connection that was turned away, `N passes K` and `N end passes P waiting A B` in words."""
    if item.word == "tick":
        return "tick"
    if item.word in TURNED_AWAY:
        return TURNED_AWAY[item.word].format(item.words[0])
    if item.word == "passes":
        return labels.count(int(item.words[0]), "frame") + " passed"
    _, total, _, engine, rbc = item.words
    waiting = "none waits" if engine == rbc == "0" else f"{engine} of the engine and {rbc} of the RBC wait"
    return f"{labels.count(int(total), 'frame')} passed, {waiting}"


def name_end(chart, side, number):
    """Names an end by its ETCS number, where that is told."""
    if number is not None:
        chart.ends[side] = f"{'engine' if side == 'e' else 'RBC'} {number}"


def charts_of(reading, drawers=()):
    """(a chart of each link or connection of a text, in order; the lines that are told as bad)."""
    drawers = drawers or [Drawer(link, reading.kind) for link in reading.links]
    charts = [drawer.draw() for drawer in drawers]
    for note in reading.notes:
        named = [chart for chart in charts if note.words[:1] == ("overfull",) and chart.name == "link " + "".join(note.words[1:2])]
        for chart in named or charts:
            chart.band("remark", note.text)
    return charts, [bad for drawer in drawers for bad in drawer.decoder.bad] + ([] if reading.kind == sources.DRILL else list(_unfinished(reading)))


def _unfinished(reading):
    """What of the octets is in no frame, link by link."""
    for link in reading.links:
        talk = conversation.Conversation()
        for item in link.items:
            if item.kind == sources.OCTETS:
                talk.directions[item.side].deframer.feed(item.octets, item.line)
        for direction in talk.directions.values():
            if direction.deframer.dropped:
                yield sources.BadLine(direction.deframer.dropped_at, f"{labels.count(direction.deframer.dropped)} before the first flag, not drawn")
            if direction.deframer.open:
                yield sources.BadLine(direction.deframer.begun, "a frame that isn't closed, not drawn")
