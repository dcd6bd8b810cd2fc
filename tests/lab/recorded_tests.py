"""The decoder against recordings: in each printed trace of tests/rows and examples, what the decoder reads in the octets that an end was given agrees
with the outcomes that stand behind them."""
import glob
import os

from decoding import framing, sources
from ends import OTHER, Ends

# What an end may release with by itself: its user, T1, its line, its time for the set-up.
BY_ITSELF = ("released 0 ", "released 1 1 local", "released 1 2 local", "released 1 5 local", "released 1 6 local", "released 1 7 local",
             "released 6 1 local")


def events_of(link):
    """Pairs of an event and its outcomes."""
    groups = []
    for item in link.items:
        if item.own and groups:
            groups[-1][1].append(item)
        else:
            groups.append((item, []))
    return groups


def lines_of(outcomes):
    return [item.text for item in outcomes if item.kind == sources.OUTCOME]


class Recorded:
    """One connection, event by event."""

    def __init__(self, link):
        opening = link.items[0].words
        numbers = dict(engine=link.engine, rbc=link.rbc, ra=opening[-1].lower(), rb=opening[-1].lower())
        self.ends = Ends(link.name, "full", 8, numbers)
        self.side = link.role
        self.end = self.ends.ends[link.role]

    def event(self, item, outcomes):
        was = self.end.taken
        if item.kind == sources.OCTETS:
            self.ends.told(self.side, lines_of(outcomes), self.ends.hears(OTHER[self.side], item.octets))
        else:
            self._own(item, outcomes)
        for outcome in outcomes:
            if outcome.kind == sources.OCTETS:
                self._sent(outcome.octets, was)

    def _own(self, item, outcomes):
        refused = False
        for outcome in outcomes:
            refused = refused or outcome.word == "refused"
            if outcome.word == "released":
                self.end.released = True
                self.ends.check(outcome.text.startswith(BY_ITSELF), item.text, "printed", outcome.text)
            if outcome.word == "taken":
                self.ends.check(self.end.accepted and self.end.accepted.pop(0) == outcome.octets, "took", outcome.text)
        if item.word == "send" and not refused:
            self.end.handed.append(item.octets)

    def _sent(self, octets, was):
        frames = [framing.spelled(frame.without_check) for frame in framing.frames_of(octets)]
        self.ends.check(b"".join(frames) == octets, "sent octets that are no frames", octets.hex())
        for frame in frames:
            self.ends.sends(self.side, frame, was)


def texts():
    for path in sorted(glob.glob("tests/rows/*/args")):
        folder = os.path.dirname(path)
        with open(path, encoding="latin-1") as args, open(os.path.join(folder, "stdout"), "rb") as stdout:
            if args.read().startswith("replay\n"):
                yield os.path.basename(folder), stdout.read()
    for path in sorted(glob.glob("examples/*.trace")):
        with open(path, "rb") as file:
            yield path, file.read()


def run(judge):
    frames = connections = 0
    for name, text in texts():
        reading = sources.read(text)
        if reading.kind != sources.TRACE:
            continue
        faults = [str(bad) for bad in reading.bad]
        for link in reading.links:
            if link.role is None:
                continue
            recorded = Recorded(link)
            for item, outcomes in events_of(link):
                recorded.event(item, outcomes)
            recorded.ends.close()
            faults += recorded.ends.faults
            frames += recorded.ends.frames
            connections += 1
        judge.none(f"the recording {name}", faults)
    print(f"recordings: {frames} frames of {connections} connections")
    judge.same("recordings with many frames", frames > 1000, True)
