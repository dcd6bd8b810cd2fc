"""Which frames an end may send at an event, by the rules of balanced mode (ISO/IEC 13239, elements of procedure, with this profile's choices).

What a drill prints doesn't say which step made an end send a frame. It can be told from the numbers: a frame names how many I frames its station
took, a new I frame goes only while the window is open, and only an expiry of T1, a REJ or a SREJ makes frames come again. A station here follows the
frames that its end sent and got; `Answer` tells of the next frame of the text whether it belongs to the event at hand.
"""
from decoding import controls

IDLE, SETTING, UP, DOWN = "idle", "setting", "up", "down"
SUPERVISORY = ("RR", "RNR", "REJ", "SREJ")
SET_UP = ("SABM", "SABME")


class Station:
    """The counts of one end: its state, how many I frames it sent, how many of them the peer acknowledged, how many it took itself. With
    selective reject it holds frames behind a gap too, and asks for each of the gap once."""

    def __init__(self, side, settings, selective=False):
        self.side, self.selective = side, selective
        self.modulo, self.window, self.t1 = settings["modulo"], settings["window"], settings["t1"]
        self.state = IDLE
        self.sent = self.acknowledged = self.taken = 0
        self.busy = False
        self.due = None
        self.pending = 0  # segments, or payloads at level link, that the user gave and that weren't sent yet
        self.held, self.asked = {}, set()
        self.asks, self.holds = [], False  # at the newest frame: the numbers that it asks for, and whether it holds it

    @property
    def outstanding(self):
        return self.sent - self.acknowledged

    def may_send(self):
        """Whether a new I frame may go now."""
        open_window = self.outstanding < self.window and not self.busy
        return self.state == UP and open_window and (self.side == "e" or self.taken > 0)

    def sends(self, seen, moment):
        """It sent this frame."""
        name = seen.control.name if seen.control else ""
        if name in SET_UP:
            self.state, self.due = SETTING, moment + self.t1
        elif name in ("DISC", "DM"):
            self.state, self.due = DOWN, None
        elif name == "I" and seen.new:
            self.sent += 1
            self.pending -= payload_kind(seen) == USER
            self.due = self.due if self.due is not None else moment + self.t1

    def valid(self, number):
        """Whether N(R) names one of the frames from the first unacknowledged to the next to send."""
        return (number - self.acknowledged) % self.modulo <= self.outstanding

    def heeds(self, seen):
        """Whether it does anything at all at this frame: frames that aren't intact and strays are ignored."""
        control = seen.control
        own, peer = controls.ADDRESSES[self.side], controls.ADDRESSES["r" if self.side == "e" else "e"]
        if self.state == DOWN or not seen.frame.intact or seen.frame.address not in (own, peer):
            return False
        if control is None:
            return self.state != IDLE
        if control.name in controls.COMMANDS and seen.frame.address != own or control.name in controls.RESPONSES and seen.frame.address != peer:
            return False
        if self.state == IDLE:
            return control.name in SET_UP and not seen.information
        if control.name == "UA" and self.state != SETTING:
            return bool(seen.information)
        return not (self.state == SETTING and control.name in ("I",) + SUPERVISORY)

    def gets(self, seen, moment):
        """It got this frame, which it heeds. Answers the information that it takes: of an I frame, and of those held behind it."""
        name = seen.control.name if seen.control else ""
        self.asks, self.holds = [], False
        if name in SET_UP and self.side == "r" and self.taken == 0:
            self.state, self.held, self.asked = UP, {}, set()
        elif name == "UA" and self.state == SETTING:
            self.state, self.due = UP, None
        elif name == "SREJ" and self.selective:
            self.due = moment + self.t1 if self.asked_for(seen.control) else self.due
        elif name in ("I",) + SUPERVISORY and self.valid(seen.control.receive):
            self._acknowledged(seen.control, moment)
            return self._files(seen) if name == "I" else []
        return []

    def asked_for(self, control):
        """Whether a SREJ names a frame that isn't acknowledged."""
        return (control.receive - self.acknowledged) % self.modulo < self.outstanding

    def _files(self, seen):
        """Takes an I frame that is the next one; with selective reject holds one behind it, up to the window."""
        ahead = (seen.control.send - self.taken) % self.modulo
        number = self.taken + ahead
        if ahead >= (self.window if self.selective else 1) or number in self.held:
            return []
        self.held[number], self.holds = seen.information, ahead > 0
        self.asks = [gap for gap in range(self.taken, number) if gap not in self.held and gap not in self.asked]
        self.asked.update(self.asks)
        taken = []
        while self.taken in self.held:
            taken.append(self.held.pop(self.taken))
            self.taken += 1
        self.asked = {gap for gap in self.asked if gap >= self.taken}
        return taken

    def _acknowledged(self, control, moment):
        rise = (control.receive - self.acknowledged) % self.modulo
        self.acknowledged += rise
        if rise:
            self.due = moment + self.t1 if self.outstanding else None
        if control.name == "REJ" and self.outstanding:
            self.due = moment + self.t1
        if control.name != "I":
            self.busy = control.name == "RNR"

    def expires(self, moment):
        """Whether T1 expires at this moment; it then starts anew."""
        if self.due is None or self.due > moment:
            return False
        self.due = moment + self.t1
        return True


class Answer:
    """The frames that a station sends at one event: how many I frames may come again, or the one whose number is `only`, whether one S frame, the
    numbers that SREJs ask for before it, which unnumbered ones, and which TPDUs new I frames may carry besides what the user waits to have sent.
    `everything` takes all, as behind a release: they are an end's last."""

    def __init__(self, station, again=0, only=None, supervisory=False, asks=(), named=(), tpdus=(), everything=False, opened=False):
        self.station, self.again, self.supervisory, self.named = station, again, supervisory, list(named)
        self.only, self.asks = only, [number % station.modulo for number in asks]
        self.tpdus, self.everything, self.opened = list(tpdus), everything, opened
        self.ended = False

    def fits(self, seen, _):
        """Whether this frame belongs to the event; it is then counted."""
        if self.everything:
            return True
        if seen is None or seen.control is None or self.ended:
            return False
        name, station = seen.control.name, self.station
        if name in self.named:
            self.named.remove(name)
            return True
        if name == "SREJ":
            return bool(self.asks) and self.asks.pop(0) == seen.control.receive
        if seen.control.receive is None or seen.control.receive != station.taken % station.modulo:
            return False
        if name == "I" and not seen.new:
            self.again -= 1
            return self.again >= 0 and self.only in (None, seen.control.send)
        return self._new(seen) if name == "I" else self._answers()

    def _new(self, seen):
        """A new I frame goes while the window is open. It carries the answer that was owed, so that no S frame follows."""
        if not self.station.may_send():
            return False
        kind = payload_kind(seen)
        if kind == USER and self.station.pending == 0 or kind != USER and kind not in self.tpdus:
            return False
        if kind == "AK":
            self.tpdus.remove(kind)
        self.supervisory = False
        return True

    def _answers(self):
        """An S frame is the last of its event, but where the frame that came opened the window."""
        fits, self.supervisory, self.ended = self.supervisory, False, not self.opened
        return fits


USER = "user"


def payload_kind(seen):
    """What an I frame carries: the user's octets, or the kind of a TPDU that the ends send by themselves."""
    if seen.tpdu is None or seen.tpdu.kind == "DT" and not (seen.sapdu is not None and seen.sapdu.kind in ("AU3", "AR")):
        return USER
    return seen.sapdu.kind if seen.tpdu.kind == "DT" else seen.tpdu.kind
