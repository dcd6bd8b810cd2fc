"""What a peer does in a case: each play is a function of the stage, on which lines are opened; the table of cases names it with its words.

A play says nothing of what is wanted: what the device did is judged by what the relay printed.
"""
import contextlib
import os

from decoding import framing

TEXTS = (b"position-report-00000001", b"position-report-00000002", b"position-report-00000003")


class Stopped(Exception):
    """Why a play can't go on, so that nothing is known of the device."""


@contextlib.contextmanager
def line_of(stage, before=b"", **habits):
    """A line to the device, on which an engine calls, and its close behind the play. These octets stand before all else."""
    line = stage.line(**habits)
    try:
        line.send(before + line.end.start())
        yield line
    finally:
        line.close()


@contextlib.contextmanager
def connected(stage, **habits):
    """A line to the device on which both ends are connected."""
    with line_of(stage, **habits) as line:
        if not line.until(lambda end: end.state == "connected", stage.patience):
            raise Stopped("no connection was made")
        # What the device sends because it is connected comes first.
        line.until(lambda end: False, stage.pause)
        yield line


def leave(stage, line):
    """The user's release of this end, where the device isn't one that leaves by itself, and what the device answers."""
    if stage.role == "train":
        line.until(lambda end: end.state == "gone", stage.patience)
    elif line.end.state == "connected":
        line.send(line.end.release())
        line.until(lambda end: end.state == "gone", stage.pause)


def talk(stage, line, texts=TEXTS):
    """An honest talk: to a centre these texts, whose echoes are awaited; a train says its own, which are said back."""
    said = 0
    for count, text in enumerate(texts if stage.role == "centre" else (), 1):
        line.send(line.end.say(text))
        if stage.echoes:
            line.until(lambda end, count=count: len(end.heard) >= count, stage.patience)
    while stage.role == "train" and line.until(lambda end: len(end.heard) > said or end.state == "gone", stage.patience) and line.end.state == "connected":
        line.send(b"".join(line.end.say(text) for text in line.end.heard[said:]))
        said = len(line.end.heard)
    leave(stage, line)


def honest(stage, texts=TEXTS, **habits):
    """A whole session."""
    with line_of(stage, **habits) as line:
        if not line.until(lambda end: end.state == "connected", stage.patience):
            raise Stopped("no connection was made")
        talk(stage, line, texts)


def two_at_once(stage):
    """Two sessions beside each other: each is connected before either talks."""
    with line_of(stage) as first, line_of(stage) as second:
        for line in (first, second):
            if not line.until(lambda end: end.state == "connected", stage.patience):
                raise Stopped("no connection was made")
        for line in (first, second):
            talk(stage, line)


def answered(stage, **habits):
    """Sets up with these habits, and hears what comes of it."""
    with line_of(stage, **habits) as line:
        line.until(lambda end: end.state == "gone", stage.patience)
        line.until(lambda end: False, stage.pause)


def said(stage, says, **habits):
    """Once both ends are connected says something, which is a function of the end, and hears what comes of it."""
    with connected(stage, **habits) as line:
        line.send(says(line.end))
        line.until(lambda end: end.state == "gone", stage.patience)
        line.until(lambda end: False, stage.pause)


def put_before_talk(stage, puts):
    """Once both ends are connected puts octets on the line, which are a function of the end, and then talks as ever."""
    with connected(stage) as line:
        line.send(puts(line.end))
        talk(stage, line)


def sharing_flags(stage, texts):
    """Says these messages in frames of which each shares a flag with the next one."""
    with connected(stage) as line:
        frames = [line.end.say(text) for text in texts]
        line.send(b"".join(frame[:-1] for frame in frames) + frames[-1][-1:])
        line.until(lambda end: len(end.heard) >= len(texts), stage.patience)
        leave(stage, line)


def silent(stage, says=None):
    """Once both ends are connected says something, and answers nothing any more."""
    with connected(stage) as line:
        line.end.answers = line.end.confirms = False
        line.send(says(line.end) if says else b"")
        line.until(lambda end: end.state == "gone", stage.longest)


def deaf_from_the_start(stage):
    """Takes the line, and never says anything."""
    with line_of(stage, answers=False) as line:
        line.until(lambda end: end.state == "gone", stage.longest)


def finish(stage, line):
    """What is left of an honest session: a train's messages are said back, and the engine leaves."""
    talk(stage, line, ())


def unconfirmed(stage, count):
    """Says so many messages and confirms nothing, until the device's window must be full; then all is confirmed, and the rest comes."""
    with connected(stage) as line:
        line.end.confirms = False
        line.send(b"".join(line.end.say(bytes([65 + place])) for place in range(count)))
        line.until(lambda end: False, stage.pause)
        line.end.confirms = True
        line.send(line.end.response(0x01))
        line.until(lambda end: len(end.heard) >= count or end.state == "gone", stage.patience)
        finish(stage, line)


def untaken(stage, count, credit):
    """Grants this credit, says so many messages to a centre, and takes none of what comes until the credit must be spent; then takes all, as they come."""
    with connected(stage, credit=credit, takes=False) as line:
        if stage.role == "centre":
            line.send(b"".join(line.end.say(bytes([65 + place])) for place in range(count)))
        line.until(lambda end: False, stage.pause)
        line.end.takes = True
        line.send(line.end.acknowledgement())
        line.until(lambda end: len(end.heard) >= count or end.state == "gone", stage.patience)
        finish(stage, line)


def busy(stage):
    """Says RNR and then a message: the device may send no I frame until RR."""
    with connected(stage) as line:
        line.end.confirms = False
        line.send(line.end.response(0x05) + line.end.say(b"while it is busy"))
        line.until(lambda end: False, stage.pause)
        line.end.confirms = True
        line.send(line.end.response(0x01))
        line.until(lambda end: len(end.heard) >= 1 or end.state == "gone", stage.patience)
        finish(stage, line)


def rejected(stage):
    """Confirms nothing of the set-up's last frames, and asks for the oldest one by REJ."""
    with line_of(stage) as line:
        line.end.confirms = False
        if not line.until(lambda end: end.state == "connected", stage.patience):
            raise Stopped("no connection was made")
        line.until(lambda end: False, stage.pause / 2)
        line.end.confirms = True
        line.send(line.end.response(0x09, line.end.confirmed if line.end.confirmed < line.end.came else line.end.came - 1))
        line.until(lambda end: False, stage.pause / 2)
        talk(stage, line)


def with_a_gap(stage):
    """Of four messages leaves out the frame of the first and gives the others; what the device asks for by REJ comes, and so all four."""
    with connected(stage) as line:
        frames = [line.end.say(bytes([65 + place]) * 20) for place in range(4)]
        line.send(b"".join(frames[1:]))
        line.until(lambda end: end.acknowledged == end.sent or end.state == "gone", stage.patience)
        if stage.role == "centre" and stage.echoes:
            line.until(lambda end: len(end.heard) >= 4, stage.patience)
        finish(stage, line)


def replayed(stage):
    """A whole session, and then on a new connection the octets that this end sent in it, each piece behind a pause."""
    with line_of(stage) as line:
        if not line.until(lambda end: end.state == "connected", stage.patience):
            raise Stopped("no connection was made")
        talk(stage, line)
    again = stage.line(answers=False)
    for octets in line.sent:
        again.until(lambda end: False, stage.pause / 2)
        again.send(octets)
    again.until(lambda end: False, stage.pause)
    again.close()


def cut_off(stage):
    """Breaks off in the midst of a frame, and comes again for a whole session."""
    with connected(stage) as line:
        line.send(line.end.say(bytes(60))[:20])
    honest(stage)


# ---- what is said or put, as functions of the end


def a_frame(address, control, information=b""):
    return lambda end: end.frame(own_or_others(end, address), control, information)


def own_or_others(end, address):
    """The address that a word or number stands for."""
    own = 0x03 if end.role == "e" else 0x01
    return {"own": own, "other": 0x04 - own}.get(address, address)


def a_response(kind, beyond=0, information=b""):
    """An S frame whose N(R) is so far beyond what came."""
    return lambda end: end.response(kind, end.came + beyond, information)


def octets(text):
    return lambda end: text


def noise(count):
    """Random octets between two flags, none of them a flag."""
    return lambda end: b"\x7e" + bytes(octet for octet in os.urandom(count) if octet != framing.FLAG) + b"\x7e"


def a_frame_too_long(end):
    """An intact frame of more than 1,032 octets, which is none."""
    return framing.spelled(bytes([end.others_address(), 0x00]) + bytes(1100))


def a_frame_aborted(end):
    """A frame that would be the next one, were it not for the escape before its closing flag."""
    return framing.spelled(bytes([end.others_address(), end.sent % 8 << 1]) + b"\x01\x00\x04\xf0\x00\x01\x80AB")[:-1] + b"\x7d\x7e"


def a_frame_of_a_stranger(end):
    """A frame that would be the next one, were it not for its address, which is that of neither station."""
    return framing.spelled(bytes([0x05, end.sent % 8 << 1]) + b"\x01\x00\x04\xf0\x00\x01\x80AB")


def a_frame_of_another_sum(end):
    """A frame that would be the next one, were it not for its check sequence."""
    frame = bytearray(framing.spelled(bytes([end.others_address(), end.sent % 8 << 1]) + b"\x01\x00\x04\xf0\x00\x01\x80AB"))
    frame[-2] ^= 0x40
    return bytes(frame)


def a_dt_beyond(end):
    """A DT whose number is the one behind the next."""
    return end.tpdu(b"\x04\xf0\x00\x01" + bytes([0x80 | (end.segments + 1) % 128]) + b"beyond")
