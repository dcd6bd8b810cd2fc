"""A peer of the device under test, written apart from the product: one end of a session, a train's or a radio block centre's, that may do what no honest end does.

Frames, TPDUs and SaPDUs are those of the standards' tables, as the laboratory's decoder reads them. It sends nothing again by itself, for its line loses nothing
unless a script says so; where the device asks by REJ it does.
"""
import os
import socket
import time

from decoding import controls, framing, network, safety, transport
from decoding.faults import Fault
from des import TripleKey

WINDOW = 7
MODULO = 8
# A TPDU of 128 octets has five that are not the user's.
SEGMENT = 123
CREDIT = 15
NORMAL_DISCONNECT = 128
# The headers of SaPDUs without their direction flag.
HEADERS = {"AU1": 0x42, "AU2": 0x24, "AU3": 0x06, "AR": 0x12, "DT": 0x0A, "DI": 0x10}


class End:
    """One end. `role` is e or r; `own` and `other` are ETCS numbers. What it does wrong is told by words of `habits`:

    | Word | What it does |
    |---|---|
    | `wrong` | the MAC of each SaPDU of these kinds is another one |
    | `feature` | the safety feature in its AU1 or AU2 |
    | `called` | its own ETCS number in its AU1 or AU2, where that isn't `own` |
    | `credit` | what its CR or CC grants, and its AKs |
    | `takes` | False: it takes no message, so it sends no AK |
    | `confirms` | False: N(R) stays where it is, and it sends no RR |
    | `answers` | False: it says nothing more |
    """

    def __init__(self, role, own, other, kmac, **habits):
        self.role, self.own, self.other, self.kmac = role, own, other, TripleKey(kmac)
        self.wrong, self.feature, self.called = habits.get("wrong", ()), habits.get("feature", 1), habits.get("called", own)
        self.credit, self.takes = habits.get("credit", CREDIT), habits.get("takes", True)
        self.confirms, self.answers = habits.get("confirms", True), habits.get("answers", True)
        self.random, self.peers_random, self.keys = os.urandom(8), None, None
        self.state, self.heard, self.ended_by = "set-up", [], None
        self.deframer, self.joiner, self.messages = framing.Deframer(), network.Joiner(), transport.MessageJoiner()
        self.sent = self.acknowledged = self.came = self.confirmed = self.segments = 0
        self.unsent, self.frames = [], {}
        self.is_busy = False

    # ---- what it says

    def start(self):
        """What an engine says first: SABM."""
        return self.frame(controls.CALLED, 0x3F) if self.role == "e" else b""

    def say(self, text, header=None, mac=None):
        """A message; `header` and `mac` are others where they aren't those of a DT of its own."""
        text = bytes([self.header("DT") if header is None else header]) + text
        return self.message(text + (self.mac("DT", text) if mac is None else mac))

    def message(self, octets):
        """The DTs of a message of any octets."""
        for begin in range(0, len(octets), SEGMENT):
            last = 0x80 if begin + SEGMENT >= len(octets) else 0
            self.unsent.append(b"\x04\xf0\x00\x01" + bytes([last | self.segments % 128]) + octets[begin:begin + SEGMENT])
            self.segments += 1
        return self.window()

    def release(self, sub=0):
        """The user's release: a DR with a DI, and a DISC."""
        return self.tpdu(self.disconnect(bytes([self.header("DI"), 0, sub]))) + self.disc()

    def disconnect(self, user=b""):
        """A DR with this user data."""
        return b"\x06\x80\x00\x01\x00\x01" + bytes([NORMAL_DISCONNECT]) + user

    def disc(self):
        self.state = "released"
        return self.frame(self.others_address(), 0x53)

    def tpdu(self, octets):
        """An I frame with a block of this TPDU, once the window lets it go."""
        self.unsent.append(octets)
        return self.window()

    def block(self, information):
        """An I frame with any information, at once."""
        number, self.sent = self.sent, self.sent + 1
        self.frames[number] = information
        return self.info(number)

    def info(self, number, receive=None):
        """The I frame of this number, with an own N(R) where one is given."""
        self.confirmed = self.came if self.confirms else self.confirmed
        receive = self.confirmed if receive is None else receive
        return framing.spelled(bytes([self.others_address(), number % MODULO << 1 | receive % MODULO << 5]) + self.frames[number])

    def response(self, kind, receive=None, information=b""):
        """An S frame, 01 RR, 05 RNR, 09 REJ, 0d SREJ."""
        self.confirmed = self.came if self.confirms else self.confirmed
        receive = self.confirmed if receive is None else receive
        return framing.spelled(bytes([controls.ADDRESSES[self.role], kind | receive % MODULO << 5]) + information)

    def frame(self, address, control, information=b""):
        return framing.spelled(bytes([address, control]) + information)

    def others_address(self):
        return controls.CALLED if self.role == "e" else controls.CALLING

    def header(self, kind, role=None):
        return HEADERS[kind] | ((role or self.role) == "r")

    def mac(self, kind, text):
        """The MAC of a text for the other end, another one where its kind is to be wrong."""
        text = self.other.to_bytes(3, "big") + text
        mac = self.keys.mac(len(text).to_bytes(2, "big") + text)
        return bytes([mac[0] ^ 1]) + mac[1:] if kind in self.wrong else mac

    def window(self):
        """What of the TPDUs that wait may go now."""
        octets = b""
        while self.unsent and self.sent - self.acknowledged < WINDOW and not self.is_busy:
            octets += self.block(b"\x01\x00" + self.unsent.pop(0))
        return octets

    # ---- what it hears

    def receive(self, octets):
        """What it answers to these octets."""
        answers = b""
        for frame in self.deframer.feed(octets):
            control = controls.read_control(frame.body) if frame.intact else None
            if control is not None:
                answers += self._frame(control, frame.body[control.octets:])
        return answers if self.answers else b""

    def _frame(self, control, information):
        if control.name == "UA":
            return self._up() if self.role == "e" and self.sent == 0 and self.state == "set-up" else b""
        if control.name == "SABM":
            return self.frame(controls.CALLED, 0x73) if self.role == "r" and self.came == 0 else b""
        if control.name in ("DM", "FRMR", "DISC"):
            self.state, self.ended_by = "gone", self.ended_by or control.name
            return self.frame(controls.ADDRESSES[self.role], 0x73) if control.name == "DISC" else b""
        if control.receive is None:
            return b""
        self._acknowledge(control)
        again = b"".join(self.info(number) for number in range(self.acknowledged, self.sent)) if control.name == "REJ" else b""
        if control.name != "I":
            return again + self.window()
        if control.send != self.came % MODULO:
            return self.response(0x01)
        self.came += 1
        before = self.sent
        answers = self._information(information) + self.window()
        return answers if self.sent > before or not self.confirms else answers + self.response(0x01)

    def _acknowledge(self, control):
        count = (control.receive - self.acknowledged) % MODULO
        if count <= self.sent - self.acknowledged:
            self.acknowledged += count
        self.is_busy = control.name == "RNR" or self.is_busy and control.name not in ("RR", "REJ")

    def _up(self):
        """CR with AU1."""
        au1 = bytes([self.header("AU1")]) + self.called.to_bytes(3, "big") + bytes([self.feature]) + self.random
        return self.tpdu(bytes([0x09, 0xE0 | self.credit, 0, 0, 0, 1, 0x20, 0xC0, 1, 7]) + au1)

    def _information(self, information):
        """What it answers to the information of an I frame; octets of another layer that it can't read it passes over."""
        try:
            tpdu = self.joiner.add(information)
            tpdu = transport.read_tpdu(tpdu) if tpdu is not None else None
            if tpdu is None or self.state in ("released", "gone"):
                return b""
            if tpdu.kind in ("CR", "CC"):
                return self._connect(tpdu.kind, safety.read_sapdu(tpdu.user))
            if tpdu.kind == "DR":
                self.state, self.ended_by = "gone", f"DR {tpdu.user.hex()}"
                return b""
            message = self.messages.add(tpdu) if tpdu.kind == "DT" else None
            return b"" if message is None else self._message(safety.read_sapdu(message))
        except Fault:
            return b""

    def _connect(self, kind, sapdu):
        self.peers_random = sapdu.random
        numbers = (sapdu.random, self.random) if kind == "CC" else (self.random, sapdu.random)
        self.keys = self.kmac.session(*numbers)
        if kind == "CC":
            return self.message(bytes([self.header("AU3")]) + self.mac("AU3", bytes([self.header("AU3")]) + b"".join(numbers)))
        au2 = bytes([self.header("AU2")]) + self.called.to_bytes(3, "big") + bytes([self.feature]) + self.random
        mac = self.mac("AU2", au2 + sapdu.random)
        return self.tpdu(bytes([0x09, 0xD0 | self.credit, 0, 1, 0, 1, 0x20, 0xC0, 1, 7]) + au2 + mac)

    def _message(self, sapdu):
        if sapdu.kind == "AU3":
            self.state = "connected"
            ar = bytes([self.header("AR")])
            return self.message(ar + self.mac("AR", ar))
        if sapdu.kind == "AR":
            self.state = "connected"
            return b""
        if sapdu.kind != "DT":
            return b""
        self.heard.append(sapdu.user)
        return self.acknowledgement() if self.takes else b""

    def acknowledgement(self):
        """AK of all that came."""
        return self.tpdu(bytes([0x04, 0x60 | self.credit, 0, 1, self.messages.count % 128]))


class Line:
    """The line of an end over a socket. `sent` has the pieces that were sent; `is_closed` says that the other side sends no more."""

    def __init__(self, stream, end, is_slow=False):
        stream.setsockopt(socket.IPPROTO_TCP, socket.TCP_NODELAY, 1)
        self.stream, self.end, self.is_slow, self.is_closed = stream, end, is_slow, False
        self.sent = []

    def send(self, octets):
        """Sends octets, one by one where the line is slow. A line that is gone takes none."""
        if octets:
            self.sent.append(octets)
        try:
            for piece in [bytes([octet]) for octet in octets] if self.is_slow else [octets]:
                self.stream.sendall(piece)
        except OSError:
            self.is_closed = True

    def until(self, holds, seconds):
        """Hears and answers until this holds of the end, at most so long; whether it does."""
        last = time.monotonic() + seconds
        while not holds(self.end) and not self.is_closed:
            left = last - time.monotonic()
            if left <= 0:
                break
            self.stream.settimeout(left)
            try:
                octets = self.stream.recv(65536)
            except TimeoutError:
                break
            except OSError:
                octets = b""
            self.is_closed = not octets
            answer = self.end.receive(octets)
            if answer:
                self.send(answer)
        return holds(self.end)

    def close(self, seconds=2):
        """Says that nothing more is sent, and reads away what still comes."""
        try:
            self.stream.shutdown(socket.SHUT_WR)
        except OSError:
            pass
        self.until(lambda end: False, seconds)
        self.stream.close()
