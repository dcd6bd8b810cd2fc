"""Charts of what a relay prints: each frame stands where it came from its end, and goes to what the relay gave for it, which the lines of its script may have
lost, repeated, altered, delayed, or put something before.
"""
from dataclasses import dataclass, field
from typing import Optional

from decoding import conversation, identities, sources, timing

from . import labels, recorded
from .model import CHANGE, COPY, DELAY, LINE, LOSS, LOST, OTHER, PUT, REPEAT, TAKEN, Chart, Flight, Mark

SOURCE = "What a relay printed: a frame goes from where it came in to what was given for it. T1 is measured at the relay."
# What a relay takes of itself to give something is below this, in milliseconds.
LEAST_DELAY = 10
REMARKS = {"open": "the connection is open", "closed": "both sides are closed"}


@dataclass
class Passage:
    """What came in a line, with its frame where it is a unit, and what was given for it, with the frames in that; None where one of both isn't there."""

    came: Optional[sources.Item] = None
    seen: Optional[conversation.Seen] = None
    flight: Optional[Flight] = None
    given: Optional[sources.Item] = None
    frames: list = field(default_factory=list)

    @property
    def is_quick(self):
        """Whether it was given as it came, so that it has one row, at which it was given."""
        return self.came is not None and self.given is not None and self.given.moment - self.came.moment < LEAST_DELAY


class Drawer:
    """Draws the chart of one connection."""

    def __init__(self, link):
        self.link = link
        self.chart = Chart(link.name, SOURCE)
        self.decoder, self.given = recorded.Decoder("full"), conversation.Conversation()
        self.timers = {side: timing.Timer() for side in OTHER}
        came = {id(item) for item in link.came}
        self.items = [(id(item) in came, item) for item in sorted(link.items + link.came, key=lambda item: item.line)]
        for side, number in zip("er", identities.of_texts(link)):
            recorded.name_end(self.chart, side, number)

    def draw(self):
        passages = self._passages()
        for is_came, item in self.items:
            passage = passages.get(item.line)
            if passage is None:
                self._told(item)
            elif is_came and not passage.is_quick:
                self._begun(passage)
            elif not is_came:
                self._given(passage)
        return self.chart

    def _passages(self):
        """The passages by the numbers of their lines: what is given is for the oldest part of that side that waits."""
        found, pending = {}, {"e": [], "r": []}
        for is_came, item in self.items:
            if item.kind != sources.OCTETS:
                continue
            if is_came:
                passage = found[item.line] = self._passage(item)
                pending[item.side].append(passage)
                continue
            passage = found[item.line] = pending[item.side].pop(0) if pending[item.side] else Passage()
            passage.given, passage.frames = item, self.given.feed(item.side, item.octets, item.line)
            for seen in passage.frames:
                self.timers[OTHER[item.side]].heard(seen, item.moment, self.given.modulo)
        return found

    def _passage(self, item):
        flights = self.decoder.flights(item)
        for seen, flight in flights:
            flight.after = self.timers[item.side].sent(seen, item.moment)
        return Passage(item, *flights[0]) if flights else Passage(item)

    def _told(self, item):
        """That the connection was opened or closed, or that a side ended."""
        self.chart.moment(item.moment)
        if item.kind == sources.EVENT:
            self.chart.note(item.side, item.word, labels.event_words(item.word, item.words, item.octets), told=False, line=item.line)
        else:
            self.chart.band("remark", REMARKS[item.word])

    def _begun(self, passage):
        """A frame that came and is given later, or never, begins its way."""
        if passage.flight is not None:
            passage.flight.row = self._row(passage.came)
            self.chart.flights.append(passage.flight)

    def _given(self, passage):
        flight, frames = passage.flight, passage.frames
        own = None if flight is None else next((place for place, other in enumerate(frames) if other.frame.content == passage.seen.frame.content), None)
        for other in frames[:own] if own is not None else ():
            self._put(passage.given, other)
        if flight is not None and passage.is_quick:
            self._begun(passage)
        if flight is None:
            self._all_put(passage)
        elif own is not None:
            self._arrived(passage, own)
        elif len(frames) == 1 and len(passage.given.octets) == len(passage.came.octets):
            self._altered(passage)
        else:
            self._lost(passage)

    def _row(self, item):
        """A new row, at the moment of this line."""
        self.chart.moment(item.moment)
        return self.chart.place(LINE)

    def _end(self, passage):
        """The row in which a frame ends: its own, or a new one where it was held back."""
        return passage.flight.row if passage.is_quick else self._row(passage.given)

    def _all_put(self, passage):
        for other in passage.frames:
            self._put(passage.given, other)

    def _arrived(self, passage, own):
        """The frame of this place among those that were given is the one that came."""
        flight, item = passage.flight, passage.given
        flight.end, flight.fate = self._end(passage), TAKEN
        if not passage.is_quick:
            flight.marks.append(Mark(flight.end, DELAY, f"{item.moment - passage.came.moment:,} ms later"))
        for other in passage.frames[own + 1:]:
            if other.frame.content == passage.frames[own].frame.content:
                self._copied(flight, item)
            else:
                self._put(item, other)

    def _copied(self, flight, item):
        flight.marks.append(Mark(flight.end, REPEAT, "repeated"))
        row = self._row(item)
        self.chart.flights.append(Flight(flight.side, flight.octets, row, flight.label, flight.kind, item.line, COPY, TAKEN, row, again=True, faulty=flight.faulty))

    def _altered(self, passage):
        flight, found = passage.flight, passage.frames[0]
        places = [str(place) for place, pair in enumerate(zip(passage.came.octets, passage.given.octets), 1) if pair[0] != pair[1]]
        flight.end, flight.fate, flight.faulty = self._end(passage), TAKEN, found.fault is not None
        flight.marks.append(Mark(flight.end, CHANGE, f"octet {', '.join(places)} altered: {labels.frame_words(found, 'full')[0]}"))

    def _lost(self, passage):
        flight = passage.flight
        flight.end, flight.fate = self._end(passage), LOST
        flight.marks.append(Mark(flight.end, LOSS, "lost"))
        self._all_put(passage)

    def _put(self, item, seen):
        row = self._row(item)
        words, kind = labels.frame_words(seen, "full")
        octets = labels.spelled(seen.frame, item.octets)
        self.chart.flights.append(Flight(item.side, octets, row, words, kind, item.line, PUT, TAKEN, row, faulty=seen.fault is not None))


def charts_of(reading):
    """(a chart of each connection that was relayed, in order; the lines that are told as bad)."""
    return recorded.charts_of(reading, [Drawer(link) for link in reading.links])
