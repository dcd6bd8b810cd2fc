"""A train, written apart from the product: from the standards' tables and this profile's, with the laboratory's decoder for what comes.

It is one end of a line: `receive` takes octets and answers those to be sent, `say` a message of the user. It waits for the echo of one message before
it takes the next, sends nothing again, since its line is TCP, and tells what came by its attributes.
"""
import os
import sys

sys.path.insert(0, os.path.join(os.path.dirname(os.path.dirname(os.path.abspath(__file__))), "tools"))

from decoding import controls, framing, network, safety, transport  # noqa: E402
from des import TripleKey  # noqa: E402

CREDIT = 15
# A TPDU has 128 octets, of which five are not the user's.
SEGMENT = 123


class Broken(Exception):
    """What came isn't what a radio block centre may send."""


class Train:
    """The calling end of an engine, to the RBC of a number. `state` goes from "set-up" by "connected" to "released"; `heard` has the messages that came."""

    def __init__(self, engine, rbc, kmac, draw):
        self.engine, self.rbc, self.kmac = engine, rbc, TripleKey(bytes.fromhex(kmac))
        self.own_random = draw(8)
        self.peers_random = self.keys = None
        self.state = "set-up"
        self.heard = []
        self.sent = self.came = 0
        self.segments_sent = self.edge = 0
        self.deframer, self.joiner, self.messages = framing.Deframer(), network.Joiner(), transport.MessageJoiner()
        self.reason = None

    def start(self):
        """The octets with which the train calls: SABM."""
        return framing.spelled(b"\x01\x3f")

    def say(self, text):
        """The octets of a message."""
        if self.state != "connected":
            raise Broken("not connected")
        return self._segment(self._sealed(b"\x0a" + text))

    def release(self, sub=0):
        """The octets of the user's release: a DR with a DI, and a DISC."""
        self.state = "released"
        return self._info(b"\x06\x80\x00\x01\x00\x01\x80" + bytes([0x10, 0, sub])) + framing.spelled(b"\x01\x53")

    def half_a_frame(self):
        """The beginning of an I frame, for a train that dies in the midst of it."""
        return self._info(b"\x04\xf0\x00\x01\x80" + bytes(40))[:20]

    def receive(self, octets):
        """The octets with which the train answers these."""
        answers = b""
        for frame in self.deframer.feed(octets):
            if not frame.intact:
                raise Broken(frame.verdict)
            answers += self._frame(frame)
        return answers

    def _frame(self, frame):
        control = controls.read_control(frame.body)
        if control is None:
            raise Broken(f"the control {frame.body[:1].hex()}")
        if control.name == "UA":
            if self.state == "set-up" and self.sent == 0:
                return self._connect()
            self.state = "gone" if self.state == "released" else self.state
        if control.name in ("DM", "DISC", "FRMR"):
            self._released(f"by {control.name}")
        if control.name != "I":
            return b""
        if control.send != self.came % 8:
            return self._response()
        self.came += 1
        before = self.sent
        answers = self._block(frame.body[1:])
        return answers if self.sent > before else answers + self._response()

    def _block(self, block):
        tpdu = self.joiner.add(block)
        if tpdu is None or self.state in ("released", "gone"):
            return b""
        tpdu = transport.read_tpdu(tpdu)
        if tpdu.kind == "CC":
            self.edge = tpdu.credit
            return self._authenticated(safety.read_sapdu(tpdu.user))
        if tpdu.kind == "AK":
            self.edge = tpdu.number + tpdu.credit
            return b""
        if tpdu.kind == "DT":
            message = self.messages.add(tpdu)
            return b"" if message is None else self._message(safety.read_sapdu(message))
        self._released(f"by {tpdu.kind} {tpdu.octets.hex()}")
        return b""

    def _message(self, sapdu):
        """What is answered to an AR, or to a message: it is taken at once."""
        if sapdu.kind == "AR":
            self._verify(sapdu, b"\x13")
            self.state = "connected"
            return b""
        if sapdu.kind != "DT" or self.state != "connected":
            raise Broken(f"{sapdu.kind} in {self.state}")
        self._verify(sapdu, sapdu.octets[:-8])
        self.heard.append(sapdu.user)
        return self._info(bytes([0x04, 0x60 | CREDIT, 0, 1, self.messages.count % 128]))

    def _connect(self):
        """CR with AU1."""
        au1 = b"\x42" + self.engine.to_bytes(3, "big") + b"\x01" + self.own_random
        return self._info(bytes([0x09, 0xE0 | CREDIT, 0, 0, 0, 1, 0x20, 0xC0, 1, 7]) + au1)

    def _authenticated(self, au2):
        """AU3, behind an AU2 of the RBC that was called."""
        if (au2.kind, au2.feature, au2.number) != ("AU2", 1, self.rbc):
            raise Broken(f"not its AU2: {au2}")
        self.peers_random = au2.random
        self.keys = self.kmac.session(au2.random, self.own_random)
        self._verify(au2, au2.octets[:13] + self.own_random)
        text = b"\x06" + au2.random + self.own_random
        return self._segment(b"\x06" + self._mac(self.rbc, text))

    def _mac(self, receiver, text):
        text = receiver.to_bytes(3, "big") + text
        return self.keys.mac(len(text).to_bytes(2, "big") + text)

    def _sealed(self, text):
        return text + self._mac(self.rbc, text)

    def _verify(self, sapdu, text):
        if not sapdu.flag or sapdu.mac != self._mac(self.engine, text):
            raise Broken(f"the MAC or the flag of {sapdu.kind}")

    def _segment(self, message):
        """DTs: the segments of a message, each of as many octets as fit."""
        octets = b""
        for begin in range(0, len(message), SEGMENT):
            number = self.segments_sent % 128
            if number == self.edge % 128:
                raise Broken("no credit")
            self.segments_sent += 1
            last = 0x80 if begin + SEGMENT >= len(message) else 0
            octets += self._info(b"\x04\xf0\x00\x01" + bytes([last | number]) + message[begin : begin + SEGMENT])
        return octets

    def _info(self, tpdu):
        """An I frame of a network block."""
        control = self.sent % 8 << 1 | self.came % 8 << 5
        self.sent += 1
        return framing.spelled(bytes([0x01, control, 0x01, 0x00]) + tpdu)

    def _response(self):
        """RR, a response: it bears the own address."""
        return framing.spelled(bytes([0x03, 0x01 | self.came % 8 << 5]))

    def _released(self, why):
        self.reason = self.reason or why
        self.state = "gone"
