"""What is expected of a device: each check looks at what the relay printed of a run, and answers why it isn't so, or nothing. One that can't tell raises Inconclusive.

What the device sent is read from the octets that came from it, what it got from those that were given to it, by the laboratory's decoder; whether MACs are right is
told by the program's `audit` of what both ends got.
"""
import subprocess
import sys

from bench import CENTRE, SIDES, TOP, Inconclusive
from decoding import conversation, sources, timing

OTHER = {"e": "r", "r": "e"}
# T1 by the relay's moments may be shorter by the way of the frames, and longer where the machine is busy.
LEAST_T1, MOST_T1 = 0.9, 1.6


class Session:
    """A relayed connection, decoded: `events` has (what, side, moment, frame) in order, where a frame was `sent` by its side or `got` by the other one."""

    def __init__(self, link):
        self.number, self.events = link.number, []
        talks = {"sent": conversation.Conversation(), "got": conversation.Conversation()}
        came = {id(item) for item in link.came}
        for item in sorted(link.items + link.came, key=lambda item: item.line):
            if item.kind == sources.OCTETS:
                what = "sent" if id(item) in came else "got"
                self.events += [(what, item.side, item.moment, seen) for seen in talks[what].feed(item.side, item.octets)]

    def sent(self, side):
        """(moment, frame) of all that a side sent."""
        return [(moment, seen) for what, other, moment, seen in self.events if (what, other) == ("sent", side)]

    def named(self, side, name):
        """The frames of a side with this control."""
        return [seen for _, seen in self.sent(side) if seen.control and seen.control.name == name]

    def texts(self, side):
        """The user octets of each message that a side sent."""
        return [seen.sapdu.user for _, seen in self.sent(side) if seen.new and seen.sapdu is not None and seen.sapdu.kind == "DT"]


class Look:
    """A run, decoded. `own` is the device's side, `peer` the other one."""

    def __init__(self, run, bench):
        self.run, self.bench, self.device = run, bench, run.device
        self.own = SIDES[run.role]
        self.peer = OTHER[self.own]
        self.sessions = [Session(link) for link in sources.read(run.printed).links]
        if not self.sessions:
            raise Inconclusive("no connection came to the relay")

    @property
    def last(self):
        return self.sessions[-1]

    def audited(self):
        """For each connection and side what the end heard: (kind, verdict, user octets) by `audit` of what the ends got."""
        tap = subprocess.run([sys.executable, f"{TOP}/tools/tap", "--engine", str(self.device.engine), "--rbc", str(self.device.rbc), self.run.path("relay.printed")],
                             capture_output=True, check=False)
        with open(self.run.path("line.tap"), "wb") as file:
            file.write(tap.stdout)
        audit = subprocess.run([self.bench.program, "audit", self.bench.keys, self.run.path("line.tap")], capture_output=True, text=True, check=False)
        with open(self.run.path("line.audit"), "w") as file:
            file.write(audit.stdout)
        if audit.returncode != 0:
            raise Inconclusive(f"the audit: {audit.stdout.strip()[-80:]}")
        found = {(session.number, side): [] for session in self.sessions for side in "er"}
        for line in audit.stdout.splitlines():
            number, side, kind, verdict, *text = line.split()
            found[int(number), side].append((kind, verdict, text[0] if text else ""))
        return found


# ---- whole sessions


def whole(look):
    """Each connection is a whole session: every text that the ends heard is good, what was said was said back, and the engine's user released it."""
    return sessions_of(look, True)


def whole_but_the_release(look):
    """The same, but that the release by the engine's user was lost."""
    return sessions_of(look, False)


def whole_at_last(look):
    """The same of the last connection alone."""
    return sessions_of(look, True, look.sessions[-1:])


def sessions_of(look, is_released, sessions=None):
    found = look.audited()
    for session in sessions or look.sessions:
        heard = {side: found[session.number, side] for side in "er"}
        bad = [f"{side}: {kind} {verdict}" for side in "er" for kind, verdict, _ in heard[side] if verdict != "good"]
        if bad:
            return f"connection {session.number}, {bad[0]}"
        for side, opening in (("e", ["au1", "au3"]), ("r", ["au2", "ar"])):
            if [kind for kind, _, _ in heard[side]][:2] != opening:
                return f"connection {session.number} wasn't set up: of {side} came {' '.join(kind for kind, _, _ in heard[side]) or 'nothing'}"
        said, back = ([text for kind, _, text in heard[side] if kind == "dt"] for side in "er")
        if not said:
            return f"connection {session.number}: no message came"
        if said != back and (look.run.role != CENTRE or look.device.echoes):
            return f"connection {session.number}: {len(said)} messages were said, and {len(back)} said back{', others' if len(said) == len(back) else ''}"
        if is_released and heard["e"][-1][0] != "di":
            return f"connection {session.number}: no release came from the engine"
    return None


def count_of_sessions(count):
    def check(look):
        return None if len(look.sessions) == count else f"{len(look.sessions)} connections, where {count} are wanted"
    return check


# ---- releases by the device


def releases(reason):
    """The device releases with this reason: by a DI in a DR, and then by DISC."""
    def check(look):
        sent = [seen for _, seen in look.last.sent(look.own)]
        told = [place for place, seen in enumerate(sent) if seen.sapdu is not None and seen.sapdu.kind == "DI"]
        if not told:
            return f"no release {reason} came: no DI; the last frame of the device: {shown(sent)}"
        found = sent[told[0]].sapdu
        if f"{found.reason}.{found.sub}" != reason:
            return f"the device releases with {found.reason}.{found.sub}, where {reason} is wanted"
        return None if "DISC" in [seen.control.name for seen in sent[told[0]:] if seen.control] else f"no DISC behind the release {reason}"
    return check


def disconnects(cause):
    """The device's transport ends the connection: by a DR of this reason without a DI, and then by DISC."""
    def check(look):
        sent = [seen for _, seen in look.last.sent(look.own)]
        told = [place for place, seen in enumerate(sent) if seen.tpdu is not None and seen.tpdu.kind == "DR"]
        if not told:
            return f"no DR came; the last frame of the device: {shown(sent)}"
        tpdu = sent[told[0]].tpdu
        if tpdu.reason != cause or tpdu.user:
            return f"DR {tpdu.reason} with {len(tpdu.user)} octets came, where DR {cause} without any is wanted"
        return None if "DISC" in [seen.control.name for seen in sent[told[0]:] if seen.control] else "no DISC behind the DR"
    return check


def refuses_the_link(look):
    """The device answers a frame that it may not get by DM."""
    return None if look.last.named(look.own, "DM") else f"no DM came; the last frame of the device: {shown([seen for _, seen in look.last.sent(look.own)])}"


def leaves_the_link(look):
    """The device ends the link by DISC."""
    return None if look.last.named(look.own, "DISC") else "no DISC came from the device"


def confirms_the_disconnect(look):
    """The device answers a DR by a DC."""
    found = [seen for _, seen in look.last.sent(look.own) if seen.tpdu is not None and seen.tpdu.kind == "DC"]
    return None if found else "no DC came from the device"


def answers_disc(look):
    """The device answers a DISC by UA."""
    behind = False
    for what, side, _, seen in look.last.events:
        name = seen.control.name if seen.control else ""
        behind = behind or (what, side, name) == ("got", look.peer, "DISC")
        if behind and (what, side, name) == ("sent", look.own, "UA"):
            return None
    return "no UA came behind the DISC" if behind else "no DISC came to the device"


def shown(sent):
    """The last frame among these, in a word."""
    seen = sent[-1] if sent else None
    if seen is None or seen.control is None:
        return "none" if seen is None else "none that can be read"
    return " ".join([str(seen.control)] + ([seen.tpdu.kind] if seen.tpdu else []) + ([seen.sapdu.kind] if seen.sapdu else []))


# ---- the link and the transport by their numbers


def says_back(*texts):
    """The device says back these messages, each once, in order."""
    def check(look):
        found = look.last.texts(look.own)
        if look.run.role != CENTRE or not look.device.echoes:
            return None
        return None if found == list(texts) else f"{len(found)} messages came, where {len(texts)} were to be said back{', and others' if len(found) == len(texts) else ''}"
    return check


def times_of(look):
    """How long T1 of the device ran, each time that its oldest frame comes again for that, and until the DISC with which it then ends the link."""
    timer, times, last = timing.Timer(), [], None
    for what, side, moment, seen in look.last.events:
        if (what, side) == ("got", look.peer):
            timer.heard(seen, moment)
        elif (what, side) == ("sent", look.own):
            ran = timer.sent(seen, moment)
            if ran is not None:
                times, last = [*times, ran], moment
            elif last is not None and seen.control and seen.control.name == "DISC":
                return times, moment - last
    return times, None


def is_t1(look, ran):
    return LEAST_T1 * look.device.t1 <= ran <= MOST_T1 * look.device.t1


def tries_again(look):
    """The device sends its oldest frame again each time that T1 has run, N2 times, and then ends the link by DISC."""
    times, until_disc = times_of(look)
    if len(times) != look.device.n2 or until_disc is None:
        return f"{len(times)} times came a frame again{'' if until_disc is not None else ', and no DISC'}, where {look.device.n2} times and then a DISC are wanted: {times} ms"
    return None if all(is_t1(look, ran) for ran in [*times, until_disc]) else f"T1 ran for {[*times, until_disc]} ms, where {look.device.t1} are wanted"


def waits_t1(look):
    """A frame of the device that was lost comes again once T1 has run, and not before."""
    times, _ = times_of(look)
    if not times:
        return "no frame of the device came again since T1 expired"
    return None if all(is_t1(look, ran) for ran in times) else f"T1 ran for {times} ms, where {look.device.t1} are wanted"


def keeps_its_window(look):
    """Of the device's I frames no more than its window are ever unacknowledged."""
    sent = acknowledged = most = 0
    for what, side, _, seen in look.last.events:
        if (what, side) == ("sent", look.own) and seen.new:
            sent += 1
            most = max(most, sent - acknowledged)
        elif (what, side) == ("got", look.peer) and seen.control and seen.control.receive is not None:
            acknowledged += (seen.control.receive - acknowledged) % 8 if (seen.control.receive - acknowledged) % 8 <= sent - acknowledged else 0
    if most > look.device.window:
        return f"{most} I frames were unacknowledged, where its window is {look.device.window}"
    if most < look.device.window:
        raise Inconclusive(f"its window was never full: {most} of {look.device.window}")
    return None


def keeps_its_credit(look):
    """No DT of the device stands above the edge that its peer granted."""
    edge, count, spent = 0, 0, False
    for what, side, _, seen in look.last.events:
        tpdu = seen.tpdu if seen.new else None
        if tpdu is None:
            continue
        if (what, side) == ("got", look.peer) and tpdu.credit is not None:
            edge = tpdu.credit + (tpdu.number if tpdu.kind == "AK" else 0)
        elif (what, side) == ("sent", look.own) and tpdu.kind == "DT":
            count += 1
            if count > edge:
                return f"DT {tpdu.number} came, where the credit ends before {edge}"
            spent = spent or count == edge
    if not spent:
        raise Inconclusive("its credit was never spent")
    return None


def waits_while_busy(look):
    """Between the RNR and the RR that the device got it sends no I frame."""
    is_busy = False
    for what, side, _, seen in look.last.events:
        name = seen.control.name if seen.control else ""
        if (what, side) == ("got", look.peer) and name in ("RNR", "RR"):
            is_busy = name == "RNR"
        elif is_busy and (what, side, name) == ("sent", look.own, "I"):
            return f"I {seen.control.send} came while the peer was busy"
    return None


def sends_again_at_once(look):
    """Behind a REJ the device sends again what it asks for, without waiting for T1."""
    asked = None
    for what, side, moment, seen in look.last.events:
        name = seen.control.name if seen.control else ""
        if (what, side, name) == ("got", look.peer, "REJ"):
            asked = moment, seen.control.receive
        elif asked and (what, side, name) == ("sent", look.own, "I"):
            if seen.control.send != asked[1] or seen.new:
                return f"I {seen.control.send} came behind REJ {asked[1]}"
            waited = moment - asked[0]
            return None if waited < look.device.t1 / 2 else f"I {seen.control.send} came {waited} ms behind the REJ"
    return "nothing came behind the REJ" if asked else "no REJ came to the device"


def rejects_once(look):
    """The device asks for the frame that is missing by one REJ of its number."""
    found = look.last.named(look.own, "REJ")
    return None if len(found) == 1 else f"{len(found)} REJ came from the device, where one is wanted"
