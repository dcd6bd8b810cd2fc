"""What two ends of a link must print, by what the decoder reads in the frames that they are given and that they send.

No key is known here, so a MAC may be wrong; and neither the credit nor the numbers of AK are reckoned. Where one of these can be the reason, an end may
release with it, and in no other place.
"""
from decoding import conversation, framing

OTHER = {"e": "r", "r": "e"}

# What an end may release with though the decoder finds no fault: a key or MAC that isn't right, by the kind of the SaPDU.
BY_KEYS = {"AU1": ["3 1"], "AU2": ["3 2", "3 5"], "AU3": ["3 3"], "AR": ["3 4"], "DT": ["4 1"]}
# And a TPDU that isn't in its place, by its kind; a DC where the line itself put in the DR that it answers.
BY_CREDIT = {"DT": ["2 2"], "AK": ["2 2"], "DC": ["2 2"]}


class End:
    """One end: whether its station is up, its release, its numbers, and what it should have accepted and said."""

    def __init__(self):
        self.up = False
        self.released = False
        self.sent = 0
        self.acknowledged = 0
        self.taken = 0
        self.peer = None
        self.accepted = []
        self.handed = []
        self.carried = []


class Ends:
    """Both ends of one link at level link or full, and the faults that were found."""

    def __init__(self, name, level, modulo, numbers):
        self.name, self.level, self.modulo, self.numbers = name, level, modulo, numbers
        self.sent = conversation.Conversation(modulo, level == "full")
        self.heard = conversation.Conversation(modulo, level == "full")
        self.ends = {"e": End(), "r": End()}
        self.faults = []
        self.frames = 0
        self.releases = []

    def check(self, right, *what):
        if not right:
            self.faults.append(" ".join([f"link {self.name}:"] + [str(part) for part in what]))

    def sends(self, side, octets, earlier):
        """A frame that this end sent: it is intact, spelled as frames are, without a fault, and its numbers are those of the end."""
        end = self.ends[side]
        self.frames += 1
        got = self.sent.feed(side, octets)
        self.check(len(got) == 1 and octets == framing.spelled(got[0].frame.without_check), "no frame", octets.hex())
        for seen in got:
            fault = None if self._answers(end, seen) else seen.fault
            self.check(fault is None, side, "sent", octets.hex(), "with the fault", fault)
            if seen.control is None:
                continue
            if seen.control.receive is not None:
                rows = {number % self.modulo for number in range(earlier, end.taken + 1)}
                self.check(seen.control.receive in rows, side, "sent", seen.control, "after", end.taken, "I frames")
            if seen.new:
                self.check(seen.control.send == end.sent % self.modulo, side, "sent", seen.control, "as its number", end.sent)
                end.sent += 1
                self._carries(side, seen)

    @staticmethod
    def _answers(end, seen):
        """A DR without a DI, as it answers a fault, and a DC, which may answer a DR that the line put in: no faults of their sender."""
        return end.released and seen.tpdu is not None and seen.tpdu.kind in ("DR", "DC")

    def _carries(self, side, seen):
        """The parts of what a new I frame carries are those that the drill named, and make up its octets."""
        end, sapdu = self.ends[side], seen.sapdu
        if self.level == "link":
            end.carried.append(seen.information)
            return
        self.check(seen.tpdu is not None and spelled_tpdu(seen.tpdu) == seen.information, side, "sent the TPDU", seen.information.hex())
        if sapdu is None:
            return
        if seen.tpdu.kind == "CR":
            self.heard.size = seen.tpdu.size
        self.check(spelled_sapdu(sapdu) == sapdu.octets and sapdu.sender == side, side, "sent the SaPDU", sapdu.octets.hex())
        own = {"AU1": ("engine", "rb"), "AU2": ("rbc", "ra")}.get(sapdu.kind)
        if own:
            self.check((sapdu.number, sapdu.random.hex()) == tuple(self.numbers[name] for name in own), side, sapdu.kind, "of other numbers")
        if sapdu.kind == "DT":
            end.carried.append(sapdu.user)

    def hears(self, side, octets):
        """What the end other than this side prints of these octets: a list of (what it prints, what it may release with in its place)."""
        wanted = []
        for seen in self.heard.feed(side, octets):
            if not self.ends[OTHER[side]].released:
                wanted += self._of_frame(OTHER[side], seen)
        return wanted

    def _of_frame(self, side, seen):
        end, name = self.ends[side], seen.control.name if seen.control else None
        reason = seen.fault.reason if seen.fault else None
        if seen.fault and reason is None or not end.up and side == "r" and (seen.fault or name not in ("SABM", "SABME")):
            return []
        if reason == "1.3":
            return self._released(side, "1 3 local")
        if name in ("SABM", "SABME"):
            return self._released(side, "1 3 local") if end.up and end.taken else self._up(side)
        if name == "UA":
            return self._up(side) if side == "e" else []
        if name in ("DISC", "DM", "FRMR"):
            return self._released(side, "1 4 local")
        if not end.up:
            return []
        if (seen.control.receive - end.acknowledged) % self.modulo > end.sent - end.acknowledged:
            return self._released(side, "1 3 local")
        end.acknowledged += (seen.control.receive - end.acknowledged) % self.modulo
        return self._payload(side, seen) if name == "I" and seen.new else []

    def _up(self, side):
        fresh, self.ends[side].up = not self.ends[side].up, True
        return [("up", [])] if fresh and self.level == "link" else []

    def _released(self, side, words):
        self.ends[side].released = True
        return [(f"released {words}", [])]

    def _payload(self, side, seen):
        end = self.ends[side]
        end.taken += 1
        if self.level == "link":
            end.accepted.append(seen.information)
            return [(f"accepted {seen.information.hex() or '-'}", [])]
        if seen.fault:
            return self._released(side, seen.fault.reason.replace(".", " ") + " local")
        tpdu, sapdu = seen.tpdu, seen.sapdu
        instead = BY_CREDIT.get(tpdu.kind, []) if tpdu else []
        if sapdu is None:
            return [("", instead)]
        instead = instead + BY_KEYS.get(sapdu.kind, [])
        if sapdu.kind == "DI":
            return self._released(side, f"{sapdu.reason} {sapdu.sub} peer")
        if sapdu.kind == "DT":
            end.accepted.append(sapdu.user)
            return [(f"accepted {sapdu.user.hex()}", instead)]
        end.peer = sapdu.number if sapdu.number is not None else end.peer
        return [(f"connected {end.peer}" if sapdu.kind in ("AU3", "AR") else "", instead)]

    def told(self, side, lines, wanted):
        """Compares the lines that an end printed of what it was given with those that it must print."""
        lines = list(lines)
        for text, instead in wanted:
            instead = [f"released {reason} local" for reason in instead]
            allowed = [text] + instead
            line = lines.pop(0) if lines and (text or lines[0] in instead) else ""
            self.releases += [line[9:]] if line.startswith("released") else []
            self.check(line in allowed, side, "printed", repr(line[:100]), "in place of", allowed)
            if line.startswith("released") and instead:
                self.ends[side].released = True
                if text.startswith("accepted"):
                    self.ends[side].accepted.pop()
                break
        self.check(not lines, side, "printed", lines, "besides")

    def close(self):
        """What each end sent is the beginning of what its user handed to it, in order."""
        for side, end in self.ends.items():
            self.check(end.carried == end.handed[: len(end.carried)], side, "sent other texts than its user handed to it")


def spelled_tpdu(tpdu):
    """The network header and the octets of a TPDU, spelled anew from its fields by the rows of X.224, clause 13."""
    credit = tpdu.credit or 0
    codes = {"CR": 0xE0 | credit, "CC": 0xD0 | credit, "DR": 0x80, "DC": 0xC0, "DT": 0xF0, "AK": 0x60 | credit}
    head = bytes([codes[tpdu.kind]]) + tpdu.destination.to_bytes(2, "big")
    if tpdu.source is not None:
        head += tpdu.source.to_bytes(2, "big")
    if tpdu.kind in ("CR", "CC"):
        head += bytes([0x20, 0xC0, 1, {128: 7, 256: 8, 512: 9, 1024: 10}[tpdu.size]])
    if tpdu.kind == "DR":
        head += bytes([tpdu.reason])
    if tpdu.kind == "DT":
        head += bytes([tpdu.number | (0x80 if tpdu.last else 0)])
    if tpdu.kind == "AK":
        head += bytes([tpdu.number])
    return b"\x01\x00" + bytes([len(head)]) + head + tpdu.user


def spelled_sapdu(sapdu):
    """The octets of a SaPDU, spelled anew from its fields by the rows of the safety layer."""
    head = bytes([sapdu.ety << 5 | sapdu.mti << 1 | sapdu.flag])
    if sapdu.kind == "DI":
        return head + bytes([sapdu.reason, sapdu.sub])
    if sapdu.number is not None:
        head += sapdu.number.to_bytes(3, "big") + bytes([sapdu.feature]) + sapdu.random
    return head + (sapdu.user or b"") + (sapdu.mac or b"")
