"""Charts of what a drill printed, beside its file: the queues of waiting frames are followed step by step as the drill's rules say, so that each
frame arrives, is lost, repeated or altered where that happened.

What a drill prints doesn't name the steps. A line belongs to a step where the step can print it: its end and its word say so, and of frames
the module stations. `N passes K`, `N S empty` and `N end ..` are held against what was followed, and a difference is told.
"""
import heapq
import operator
from collections import deque

from decoding import conversation, framing, sources
from decoding.sources import BadLine

from . import labels, stations
from .model import CHANGE, COPY, LINE, LOSS, LOST, OTHER, PUT, REPEAT, SENT, TAKEN, UNTOLD, Chart, Flight, Mark
from .recorded import Decoder, name_end, remark_words

SOURCE = "What a drill printed, beside its file: each frame arrives, is lost or repeated where the step of the file says."
MOST_WAITING = 16
LONGEST_MESSAGE = 1023
OWN_TPDUS = ("CR", "CC", "AU3", "AR", "AK", "DC", "DR")
TIMES_SPENT = [("1", "1", "local"), ("1", "2", "local"), ("6", "1", "local")]
SAFE_ANSWERS = {"AU1": "AU2", "AU2": "AU3", "AU3": "AR"}
SAFE_OUTCOMES = {"AU3": "connected", "AR": "connected", "DT": "accepted"}


class Wire:
    """One link while its steps are followed: its chart, its stations, and the frames that wait in each direction."""

    def __init__(self, link, level, settings, selective):
        self.level, self.selective = level, selective
        self.chart = Chart(link.name, SOURCE)
        self.stations = {side: stations.Station(side, settings, selective) for side in "er"}
        self.waiting = {"e": deque(), "r": deque()}
        self.passed = 0
        self.released = {"e": False, "r": False}
        self.arrivals = conversation.Conversation(settings["modulo"], level == "full", selective)
        self.modulo = settings["modulo"]
        self.decoder = Decoder(level, settings["modulo"], True, selective)
        self.sent = {item.line: self.decoder.flights(item)[0] for item in link.items if item.kind == sources.OCTETS}

    def mark(self, flight, what, text):
        """The line does something to a waiting frame: in the row in which an end sent it, where that is the lowest, else in a new one."""
        free = flight.origin == SENT and flight.row == self.chart.last and not flight.marks
        row = self.chart.last if free else self.chart.place(LINE)
        flight.marks.append(Mark(row, what, text))
        return row

    def glance(self, side, frame):
        """What one frame is by itself."""
        return conversation.Conversation(self.modulo, False, self.selective).look(side, frame)

    def words(self, side, octets):
        """(words, kind, whether it is faulty) of octets by themselves, before they arrive: the frames that they close."""
        if self.level == "safe":
            words, kind, fault = labels.sapdu_of(octets)
            return words, kind, fault is not None
        return self.joined([self.glance(side, frame) for frame in framing.frames_of(octets)], octets, "link")

    def joined(self, seen, octets, level):
        """The same of frames that were decoded."""
        found = [labels.frame_words(one, level) for one in seen[:3]]
        if not found:
            return f"{labels.count(len(octets))}, no frame", "bad", True
        more = f" and {len(seen) - 3} more" if len(seen) > 3 else ""
        return " | ".join(words for words, _ in found) + more, found[0][1], any(one.fault is not None for one in seen)

    def arrived(self, flight, seen):
        """Names what came, where it isn't what an end sent."""
        changed = [mark for mark in flight.marks if mark.what == CHANGE]
        if not seen or flight.origin != PUT and not changed:
            return
        words, _, flight.faulty = self.joined(seen, flight.octets, self.level)
        if flight.origin == PUT:
            flight.label = f"{flight.label.split(': ')[0]}: {words}"
        for mark in changed:
            mark.text = f"{mark.text.split(': ')[0]}: {words}"


class Follower:
    """Follows the steps of a drill along its printed text."""

    def __init__(self, reading, drill):
        self.reading, self.drill = reading, drill
        self.links = {link.number: link for link in reading.links}
        lists = [[(item.line, link.number, item) for item in link.items] for link in reading.links]
        self.items = [(number, item) for _, number, item in heapq.merge(*lists, key=operator.itemgetter(0))]
        self.counts = self._places_of_counts()
        self.place = 0
        self.wires = {}
        self.moment = 0
        self.refused_until = 0  # the place of the step behind a run of sends that are refused
        self.strays = []
        self.bad = []  # lines of the text that don't fit, and steps of the file
        self.bad_steps = []

    def charts(self):
        """A chart of each link, in the order in which they were opened."""
        stops = [note.words[1] for note in self.reading.notes if note.words[:1] == ("line",) and len(note.words) > 1]
        cut = not any(item.word == "end" for _, item in self.items)
        for place, step in enumerate(self.drill.steps):
            if str(step.line) in stops or cut and self.place == len(self.items):
                self._cut(step)
                break
            self.step_place = place
            self._step(step)
        self._end()
        for wire in self.wires.values():
            self.bad += wire.decoder.bad
        return [wire.chart for wire in self.wires.values()]

    def _places_of_counts(self):
        """For each place of the text that of the next line `N passes K` or `N end ..`, at it or behind."""
        places = [len(self.items)] * (len(self.items) + 1)
        for place in range(len(self.items) - 1, -1, -1):
            places[place] = place if self.items[place][1].word in ("passes", "end") else places[place + 1]
        return places

    def _step(self, step):
        if step.word == "tick":
            self._tick(step)
        elif step.word in ("link", "fixed", "wire"):
            self._open(step)
        elif step.values[0] not in self.wires:
            self.bad_steps.append(BadLine(step.line, f"link {step.values[0]} wasn't opened by a line before"))
        else:
            getattr(self, "_" + step.word)(step, self.wires[step.values[0]])

    def _cut(self, step):
        """The text ends before this step."""
        why = " ".join(self.reading.notes[-1].words) if self.reading.notes else "the text ends here"
        if not self.reading.notes:
            last = self.items[-1][1].line if self.items else 0
            self.bad.append(BadLine(last, f"the text ends, and the drill file goes on with its line {step.line}"))
        for wire in self.wires.values():
            wire.chart.band("remark", f"{why}: line {step.line} of the drill file isn't drawn, nor what is behind it")

    # The text: the next line, where it is one that is looked for.

    def _next(self, number, side, *words):
        """The next line, where it is one of this link and side with one of these words."""
        if self.place == len(self.items):
            return None
        link, item = self.items[self.place]
        return item if link == number and item.side == side and item.word in words else None

    def _use(self, number, side, *words):
        """The same, and goes on behind it."""
        item = self._next(number, side, *words)
        self.place += item is not None
        return item

    def _stray(self):
        """The next line belongs to no step: it is drawn where it stands."""
        number, item = self.items[self.place]
        self.place += 1
        self.strays.append(item.line)
        if number not in self.wires:
            self._wire(number, self.links[number])
        wire = self.wires[number]
        if item.kind == sources.OCTETS:
            flight = self._fly(wire, item, share=False)
            flight.fate, flight.end = UNTOLD, flight.row
        elif item.side is not None:
            self._tell(wire, item, share=False)

    # What an end does at an event.

    def _fly(self, wire, item, share=True):
        """An end sends a frame, which joins those that wait."""
        seen, flight = wire.sent[item.line]
        flight.row = wire.chart.place(LINE, share)
        wire.chart.flights.append(flight)
        wire.waiting[item.side].append(flight)
        if seen is not None:
            wire.stations[item.side].sends(seen, self.moment)
        return flight

    def _answer(self, number, side, answer):
        """Draws the frames that an end sends at an event: those next in the text that fit."""
        wire = self.wires[number]
        while (item := self._next(number, side, "frame")) is not None:
            seen, flight = wire.sent[item.line]
            if not answer.fits(seen, flight):
                break
            self.place += 1
            self._fly(wire, item)

    def _tell(self, wire, item, share=True):
        """Draws what an end tells."""
        text, more = labels.outcome_words(item.word, item.words, item.octets)
        wire.chart.note(item.side, item.word, text, more, share=share, line=item.line)
        if item.word == "connected":
            name_end(wire.chart, OTHER[item.side], int(item.words[0]))
        if item.word == "released":
            wire.released[item.side] = True

    # Steps that open a link, of the users, and of time.

    def _wire(self, number, link):
        wire = self.wires[number] = Wire(link, self.drill.level, self.drill.settings, self.drill.selective)
        return wire

    def _open(self, step):
        number = step.values[0]
        if number in self.wires:
            self.bad_steps.append(BadLine(step.line, f"link {number} is opened twice"))
            return
        link = self.links.get(number) or sources.Link("link", number)
        wire = self._wire(number, link)
        if step.word != "wire":
            name_end(wire.chart, "e", step.values[1])
            name_end(wire.chart, "r", step.values[2])
        item = self._use(number, "e", "frame") if step.word != "fixed" else None
        if item is not None:
            self._fly(wire, item)

    def _send(self, step, wire):
        number, side, octets = step.values
        refused = self._refused(step)
        more = labels.outcome_words("refused", refused.words, b"")[0] if refused else ""
        wire.chart.note(side, "send", labels.event_words("send", (), octets), more, told=False, line=refused and refused.line)
        if refused is not None:
            return
        station = wire.stations[side]
        if self.drill.level == "safe":
            self._answer(number, side, _SafeAnswer("DT"))
            return
        station.pending += 1 if self.drill.level == "link" else -(-(len(octets) + 9) // (self.drill.settings["size"] - 5))
        self._answer(number, side, stations.Answer(station))

    def _refused(self, step):
        """The line that refuses this send. Of sends behind each other that fill the queue the last ones are refused."""
        number, side, octets = step.values
        item = self._next(number, side, "refused")
        if item is None or item.words[0] == "length" and int(item.words[1]) != len(octets):
            return None
        if item.words[0] == "full" and not self._is_full(number, side):
            return None
        return self._use(number, side, "refused")

    def _is_full(self, number, side):
        """Whether the send at hand is among those that are refused because 16 wait: of a run of sends the last ones are."""
        if self.drill.level == "link":
            return self.wires[number].stations[side].pending >= MOST_WAITING
        if self.step_place < self.refused_until:
            return True
        sends, end = 0, self.step_place
        while end < len(self.drill.steps) and self.drill.steps[end].word == "send" and self.drill.steps[end].values[:2] == (number, side):
            sends += 1 <= len(self.drill.steps[end].values[2]) <= LONGEST_MESSAGE
            end += 1
        refusals = self.place
        while refusals < len(self.items) and self._is_refusal(number, side, *self.items[refusals]):
            refusals += 1
        full = refusals - self.place >= sends
        self.refused_until = end if full else 0
        return full

    def _is_refusal(self, number, side, link, item):
        return link == number and item.side == side and item.text.startswith("refused full")

    def _take(self, step, wire):
        number, side = step.values
        item = self._use(number, side, "taken", "none")
        text = labels.outcome_words(item.word, item.words, item.octets)[0] if item else "take"
        wire.chart.note(side, "take", text, told=False, line=item and item.line)
        self._answer(number, side, stations.Answer(wire.stations[side], tpdus=["AK"]))

    def _release(self, step, wire):
        number, side, sub = step.values
        wire.chart.note(side, "release", labels.event_words("release", (str(sub),), b""), told=False)
        item = self._next(number, side, "released")
        if item is not None and item.words == ("0", str(sub), "local"):
            self.place += 1
            self._tell(wire, item, share=False)
            self._answer(number, side, stations.Answer(wire.stations[side], everything=True))

    def _tick(self, step):
        self.moment = max(self.moment, step.values[0])
        for number in sorted(self.wires):
            wire = self.wires[number]
            if not all(wire.released.values()):
                wire.chart.band("tick", f"tick: {self.moment:,} ms")
            for side in "er":
                self._expire(number, side, wire.stations[side])

    def _expire(self, number, side, station):
        """What the end at this side does at a moment: it is released, or its T1 expires."""
        item = self._next(number, side, "released")
        if item is not None and item.words in TIMES_SPENT:
            self.place += 1
            self._tell(self.wires[number], item, share=False)
            self._answer(number, side, stations.Answer(station, everything=True))
        elif station.expires(self.moment):
            named = ["SABM", "SABME"] if station.state == stations.SETTING else ()
            self._answer(number, side, stations.Answer(station, again=station.outstanding, named=named))

    # Steps of the line.

    def _head(self, step, wire):
        """The first frame that waits in the direction of a step; None, where none does, which is told on the chart."""
        number, side = step.values[:2]
        if wire.waiting[side]:
            return wire.waiting[side][0]
        if self._use(number, side, "empty") is None:
            self.bad_steps.append(BadLine(step.line, f"{step.word}, and no frame of {side} waits, as far as the text tells"))
        wire.chart.band("remark", f"{step.word} {side}: no frame waits")
        return None

    def _lose(self, step, wire):
        flight = self._head(step, wire)
        if flight is not None:
            wire.waiting[flight.side].popleft()
            flight.end, flight.fate = wire.mark(flight, LOSS, "lost"), LOST

    def _repeat(self, step, wire):
        flight = self._head(step, wire)
        if flight is not None:
            row = wire.mark(flight, REPEAT, "repeated")
            copy = Flight(flight.side, flight.octets, row, flight.label, flight.kind, flight.line, COPY, again=True, faulty=flight.faulty)
            wire.chart.flights.append(copy)
            wire.waiting[flight.side].insert(1, copy)

    def _alter(self, step, wire):
        flight = self._head(step, wire)
        number, side, place, change = step.values
        if flight is None:
            return
        if place >= len(flight.octets):
            self._use(number, side, "short")
            wire.chart.band("remark", f"alter {side}: the frame has no octet {place}")
            return
        octets = bytearray(flight.octets)
        octets[place] ^= change[0]
        flight.octets = bytes(octets)
        words, _, flight.faulty = wire.words(side, flight.octets)
        wire.mark(flight, CHANGE, f"octet {place} altered: {words}")

    def _put(self, step, wire):
        _, side, octets = step.values
        self._inserted(wire, side, octets, "put")

    def _copy(self, step, wire):
        number, side, other, direction = step.values
        flight = self._head(step, wire)
        if flight is not None and other in self.wires:
            wire.mark(flight, REPEAT, f"copied to link {other}, {direction}'s direction")
            self._inserted(self.wires[other], direction, flight.octets, f"copy from link {number}")

    def _inserted(self, wire, side, octets, why):
        """Octets become the first waiting frame of a direction."""
        words, kind, faulty = wire.words(side, octets)
        flight = Flight(side, octets, wire.chart.place(LINE), f"{why}: {words}", f"{why} {kind}", None, PUT, faulty=faulty)
        wire.chart.flights.append(flight)
        wire.waiting[side].appendleft(flight)

    def _drain(self, step, wire):
        number, most = step.values
        behind = self.counts[self.place]
        link, told = self.items[behind] if behind < len(self.items) else (None, None)
        known = link == number and told.word == "passes"
        left = int(told.words[0]) if known else most
        while left and (wire.waiting["e"] or wire.waiting["r"]) and (known or self.place < len(self.items)):
            self._arrive(number, wire, "e" if wire.waiting["e"] else "r")
            left -= 1
        while known and self.place < behind:
            self._stray()
        self.place += known
        if known and left:
            self.bad.append(BadLine(told.line, f"{told.words[0]} passes, and the steps of the drill file have {left} fewer"))

    def _pass(self, step, wire):
        flight = self._head(step, wire)
        if flight is not None:
            self._arrive(step.values[0], wire, flight.side)

    # A frame arrives.

    def _arrive(self, number, wire, side):
        """The first waiting frame of a direction is given to the other end."""
        flight, chart = wire.waiting[side].popleft(), wire.chart
        shared = flight.last_row == chart.last and (flight.origin != COPY or flight.marks)
        flight.end = chart.last if shared else chart.place(LINE)
        flight.fate = TAKEN
        wire.passed += 1
        if wire.released[OTHER[side]]:
            return
        if wire.level == "safe":
            self._got_sapdu(number, wire, OTHER[side], flight)
            return
        frames = wire.arrivals.directions[side].deframer.feed(flight.octets)
        wire.arrived(flight, [self._got_frame(number, wire, OTHER[side], frame) for frame in frames])

    def _got_sapdu(self, number, wire, side, flight):
        kind = labels.sapdu_of(flight.octets)[1]
        item = self._use(number, side, SAFE_OUTCOMES.get(kind, "released"), "released")
        if item is not None:
            self._tell(wire, item)
        self._answer(number, side, _SafeAnswer("DI" if wire.released[side] else SAFE_ANSWERS.get(kind)))

    def _got_frame(self, number, wire, side, frame):
        """What an end tells and sends when it gets one frame. Answers what was decoded."""
        station = wire.stations[side]
        seen = wire.glance(OTHER[side], frame)
        if wire.released[side] or not station.heeds(seen):
            return seen
        if seen.control is not None and seen.control.name == "I":
            seen = wire.arrivals.look(OTHER[side], frame)
        closed, faulty = not station.may_send(), _link_fault(station, seen)
        taken = station.gets(seen, self.moment)
        accepted = [("accepted", user) for user in _users(seen, taken)]
        for word, user in [("up", None), ("connected", None)] + accepted + [("released", None)]:
            item = self._next(number, side, word)
            if item is not None and _causes(item, seen, user, bool(taken), faulty):
                self.place += 1
                self._tell(wire, item)
        self._answer(number, side, _answer_to(station, seen, wire.released[side], closed))
        return seen

    def _end(self):
        """What is left of the text, and what still waits."""
        while self.place < len(self.items):
            number, item = self.items[self.place]
            wire = self.wires.get(number)
            if wire is None or item.word != "end":
                self._stray()
                continue
            self.place += 1
            counts = [wire.passed, len(wire.waiting["e"]), len(wire.waiting["r"])]
            if counts != [int(item.words[place]) for place in (1, 3, 4)]:
                self.bad.append(BadLine(item.line, "the steps of the drill file lead to {} passes, and {} and {} frames wait".format(*counts)))
            wire.chart.band("end", remark_words(item))
        if self.strays:
            more = f", nor {labels.count(len(self.strays) - 1, 'line')} behind it" if len(self.strays) > 1 else ""
            self.bad.append(BadLine(self.strays[0], f"no step of the drill file prints it{more}; drawn where the text has it"))


class _SafeAnswer:
    """At level safe an end answers with at most one SaPDU, of a known kind."""

    def __init__(self, kind):
        self.kind = kind

    def fits(self, _, flight):
        """Whether this frame belongs to the event; there is one at most."""
        kind, self.kind = self.kind, None
        return flight.kind == kind


def _link_fault(station, seen):
    """Whether a frame is one that an end of balanced mode releases at, with 1.3."""
    if seen.control is None or seen.control.name == ("REJ" if station.selective else "SREJ"):
        return True
    if seen.control.receive is not None and seen.control.name != "SREJ" and not station.valid(seen.control.receive):
        return True
    if seen.control.name in stations.SET_UP and (station.side == "e" or station.taken > 0):
        return True
    return bool(seen.information) and seen.control.name not in ("I", "FRMR")


def _users(seen, taken):
    """The users' octets in what an end takes at a frame."""
    if seen.carried is None:
        return taken
    return [seen.sapdu.user] if taken and seen.sapdu is not None else []


def _causes(item, seen, user, took, faulty):
    """Whether an end can tell this at this frame, of these octets of a user."""
    name = seen.control.name if seen.control else ""
    if item.word == "up":
        return name in stations.SET_UP or name == "UA"
    if item.word == "accepted":
        return user == item.octets
    if item.word == "released" and item.words[:2] == ("1", "3"):
        return faulty
    if item.word == "released" and item.words[0] == "1" and item.words[2] == "local":
        return name in ("DISC", "DM", "FRMR")
    return took


def _answer_to(station, seen, released, closed):
    """The frames with which an end may answer a frame."""
    name = seen.control.name if seen.control else ""
    opened = closed and station.may_send()
    if released:
        return stations.Answer(station, everything=True)
    if name in stations.SET_UP:
        return stations.Answer(station, named=["UA"])
    if name == "I":
        return stations.Answer(station, supervisory=not station.holds, asks=station.asks, tpdus=OWN_TPDUS, opened=opened)
    if name == "SREJ":
        return stations.Answer(station, again=int(station.asked_for(seen.control)), only=seen.control.receive)
    return stations.Answer(station, again=station.outstanding if name == "REJ" else 0, tpdus=OWN_TPDUS)
