"""The table of cases: what is done to the device under test, by which rule of docs/FORMATS.md, and what is wanted of it in each of its roles.

A case without a play has this program's `call` (for a device that answers as a radio block centre) or `serve` (for one that calls as a train) as its peer, under a
relay whose script is given; any other has a play of plays.py, which does what no honest end does.
"""
import sys
import textwrap
from dataclasses import dataclass, field
from functools import partial
from typing import Callable, Optional

sys.dont_write_bytecode = True

# The first of these tells where the tools are.
from bench import CENTRE, TRAIN  # noqa: E402
import plays  # noqa: E402
from judging import (answers_disc, confirms_the_disconnect, count_of_sessions, disconnects, keeps_its_credit, keeps_its_window, leaves_the_link,  # noqa: E402
                     refuses_the_link, rejects_once, releases, says_back, sends_again_at_once, tries_again, waits_t1, waits_while_busy, whole, whole_at_last,
                     whole_but_the_release)


@dataclass(frozen=True)
class Case:
    """A case: its rule is a section of docs/FORMATS.md and words that stand there; `wanted` has the checks by role, and no others are played."""

    name: str
    rule: tuple
    script: tuple = ()
    play: Optional[Callable] = None
    calls: int = 1
    wanted: dict = field(default_factory=dict)


def case(name, section, words, *script, play=None, calls=1, both=None, centre=None, train=None):
    """A row of the table."""
    wanted = {role: checks for role, checks in ((CENTRE, centre or both), (TRAIN, train or both)) if checks}
    return Case(name, (section, words), script, play, calls, wanted)


def said(says, **habits):
    return partial(plays.said, says=says, **habits)


def put(puts):
    return partial(plays.put_before_talk, puts=puts)


def answered(**habits):
    return partial(plays.answered, **habits)


def other_key(stage):
    """Another key than the device's, in the last bit of its last third that DES uses."""
    kmac = stage.device.kmac
    plays.answered(stage, kmac=kmac[:-1] + bytes([kmac[-1] ^ 2]))


def other_number(stage):
    """Another ETCS number than the device knows of its peer."""
    plays.answered(stage, own=(stage.device.engine if stage.role == CENTRE else stage.device.rbc) + 1)


def unexpected(end):
    """The SaPDU by which it was connected, once more."""
    return end.message(bytes([end.header("AU3" if end.role == "e" else "AR")]) + bytes(8))


def turned_flag(end):
    """A DT with the direction flag of its receiver."""
    return end.say(b"turned", header=end.header("DT", "r" if end.role == "e" else "e"))


WHOLE = (whole,)
LONG = (bytes(range(256)), b"\x7d\x7e" * 100, bytes(1), bytes(123), bytes(range(250)) * 4 + bytes(23))
GAP = tuple(bytes([65 + place]) * 20 for place in range(4))
# A frame of 1,101 octets with its right check sequence, and one that an escape before its flag aborts.
TOO_LONG = plays.a_frame_too_long
OTHER_OCTETS = "00112233445566778899aabbccddeeff7d5d00ff"
T1 = ("Drills", "a T1 that is due expires")
ONCE = ("Taps", "repeated frames count once")
BAD = ("Bits", "its check sequence is wrong")
FRAME_ERROR = ("Releases", "a control, number or information against the rules of balanced HDLC")
TRANSPORT = ("Releases", "a TPDU that is faulty or may not come now")

CASES = (
    # ---- whole sessions
    case("set-up", "Traces and recordings", "an engine calls, a radio block centre answers", both=WHOLE),
    case("two-at-once", "Limits", "trains that `serve` has at once", calls=2, both=(whole, count_of_sessions(2))),
    case("two-interleaved", "Limits", "trains that `serve` has at once", play=plays.two_at_once, both=(whole, count_of_sessions(2))),
    case("every-octet-and-length", "Limits", "octets of a message", play=partial(plays.honest, texts=LONG), centre=(whole, says_back(*LONG))),
    case("cut-off-in-a-frame", "Releases", "the peer closed the connection", play=plays.cut_off, both=(whole_at_last, count_of_sessions(2))),
    # ---- each frame and TPDU lost once, and recovered
    case("lost-sabm", *T1, "lose e sabm 1", centre=WHOLE, train=(whole, waits_t1)),
    case("lost-ua", *T1, "lose r ua 1", centre=WHOLE, train=(whole, waits_t1)),
    case("lost-cr", *T1, "lose e cr 1", centre=WHOLE, train=(whole, waits_t1)),
    case("lost-cc", *T1, "lose r cc 1", centre=(whole, waits_t1), train=WHOLE),
    case("lost-au3", *T1, "lose e dt 1", centre=WHOLE, train=(whole, waits_t1)),
    case("lost-ar", *T1, "lose r dt 1", centre=(whole, waits_t1), train=WHOLE),
    case("lost-message", *ONCE, "lose e dt 2", both=WHOLE),
    case("lost-echo", *ONCE, "lose r dt 2", both=WHOLE),
    case("lost-ak-of-the-train", *ONCE, "lose e ak 1", both=WHOLE),
    case("lost-ak-of-the-centre", *ONCE, "lose r ak 1", both=WHOLE),
    case("lost-rr-of-the-train", *ONCE, "lose e rr 1", both=WHOLE),
    case("lost-rr-of-the-centre", *ONCE, "lose r rr 1", both=WHOLE),
    case("lost-message-and-its-rej", *T1, "lose e dt 2", "lose r rej 1", both=WHOLE),
    case("lost-three-in-a-row", *T1, "lose e dt 1", "lose e dt 2", "lose e dt 3", both=WHOLE),
    case("lost-dr", "Releases", "the link was disconnected: DISC, DM or FRMR", "lose e dr 1", both=(whole_but_the_release,)),
    case("lost-disc", "Releases", "released by the user", "lose e disc 1", both=WHOLE),
    # ---- repeated, delayed, altered
    case("repeated-sabm", *ONCE, "repeat e sabm 1", both=WHOLE),
    case("repeated-ua", *ONCE, "repeat r ua 1", both=WHOLE),
    case("repeated-cr-and-cc", *ONCE, "repeat e cr 1", "repeat r cc 1", both=WHOLE),
    case("repeated-message", *ONCE, "repeat e dt 2", both=WHOLE),
    case("repeated-echo", *ONCE, "repeat r dt 2", both=WHOLE),
    case("delayed-beyond-t1", *T1, "delay r cc 1 1500", both=WHOLE),
    case("delayed-acknowledgement", *T1, "delay e rr 1 1300", both=WHOLE),
    case("altered-message", *BAD, "alter e dt 2 9 20", both=WHOLE),
    case("altered-au2", *BAD, "alter r cc 1 24 01", both=WHOLE),
    # ---- what is no frame
    case("octets-before-the-first-flag", "Bits", "what is between a flag and the next flag", f"put e sabm 1 {OTHER_OCTETS}", f"put r ua 1 {OTHER_OCTETS}", both=WHOLE),
    case("garbage-between-frames", *BAD, f"put e dt 2 7e{OTHER_OCTETS}7e7e7e7e{OTHER_OCTETS}7e", f"put r dt 2 7e{OTHER_OCTETS}7e", both=WHOLE),
    case("random-octets", *BAD, play=put(plays.noise(200)), both=WHOLE),
    case("wrong-check-sequence", *BAD, play=put(plays.a_frame_of_another_sum), both=WHOLE),
    case("frame-too-long", "Bits", "more than 1,032 octets", play=put(TOO_LONG), both=WHOLE),
    case("frame-too-short", "Bits", "fewer than 4 octets", "put e dt 2 7e01027e", "put r dt 2 7e037e", both=WHOLE),
    case("aborted-frame", "Bits", "an abort ended it", play=put(plays.a_frame_aborted), both=WHOLE),
    case("shared-flags", "Bits", "frames that share flags", play=partial(plays.sharing_flags, texts=GAP), centre=(whole, says_back(*GAP))),
    case("frame-of-a-stranger", *FRAME_ERROR, play=put(plays.a_frame_of_a_stranger), both=WHOLE),
    # ---- the link
    case("unknown-control", *FRAME_ERROR, play=said(plays.a_frame("own", 0xFF)), both=(refuses_the_link,)),
    case("acknowledged-what-never-came", *FRAME_ERROR, play=said(plays.a_response(0x01, 3)), both=(refuses_the_link,)),
    case("information-in-rr", *FRAME_ERROR, play=said(plays.a_response(0x01, 0, b"\x00")), both=(refuses_the_link,)),
    case("selective-reject", *FRAME_ERROR, play=said(plays.a_response(0x0D)), both=(refuses_the_link,)),
    case("set-up-frame-in-a-session", *FRAME_ERROR, play=said(plays.a_frame("other", 0x3F)), both=(refuses_the_link,)),
    case("disconnected-link", "Releases", "the link was disconnected: DISC, DM or FRMR", play=said(lambda end: end.disc()), both=(answers_disc,)),
    case("window", "Drills", "`window` | link, full | 1 to 7", play=partial(plays.unconfirmed, count=10), centre=(whole, keeps_its_window)),
    case("busy-peer", "Releases", "T1 expired too often in a row", play=plays.busy, both=(waits_while_busy,)),
    case("asked-by-reject", *ONCE, play=plays.rejected, both=(whole, sends_again_at_once)),
    case("asks-once-for-a-gap", *ONCE, play=plays.with_a_gap, centre=(whole, says_back(*GAP), rejects_once), train=(rejects_once,)),
    case("silence-in-a-session", "Releases", "N2 + 1 expiries of T1 without an acknowledgement of anything new",
         play=partial(plays.silent, says=lambda end: end.say(b"the last word")), both=(tries_again,)),
    case("silence-from-the-start", "Releases", "N2 + 1 expiries of T1 without a UA", play=plays.deaf_from_the_start, train=(tries_again,)),
    # ---- the transport
    case("credit", "Drills", "`credit` | full | 1 to 15", play=partial(plays.untaken, count=3, credit=3), both=(whole, keeps_its_credit)),
    case("dt-of-another-number", *TRANSPORT, play=said(plays.a_dt_beyond), both=(disconnects(133),)),
    case("unknown-tpdu", *TRANSPORT, play=said(lambda end: end.tpdu(b"\x02\x10\x00")), both=(disconnects(133),)),
    case("tpdu-cut-short", *TRANSPORT, play=said(lambda end: end.tpdu(b"\x06\xf0\x00")), both=(disconnects(138),)),
    case("message-too-long", "Releases", "a message above 1,032 octets", play=said(lambda end: end.message(bytes([end.header("DT")]) + bytes(1040))), both=(disconnects(133),)),
    case("other-network-block", "Releases", "a faulty network block", play=said(lambda end: end.block(b"\x02\x00AB")), both=(disconnects(133),)),
    case("dr-without-di", "Releases", "a DR without the DI of its sender", play=said(lambda end: end.tpdu(end.disconnect())), both=(confirms_the_disconnect,)),
    case("released-by-the-peer", "Releases", "released by the user", play=said(lambda end: end.release(7)), both=(confirms_the_disconnect,)),
    case("di-in-a-dt", "Releases", "released by the user", play=said(lambda end: end.message(bytes([end.header("DI"), 0, 7]))), both=(leaves_the_link,)),
    # ---- the safety layer
    case("other-key", "Releases", "the keys of both ends differ", play=other_key, centre=(releases("3.3"),), train=(releases("3.2"),)),
    case("other-etcs-number", "Releases", "its key file has no key of this pair", play=other_number, centre=(releases("3.1"),)),
    case("other-centre-than-called", "Releases", "another radio block centre answered than was called", play=other_number, train=(releases("3.5"),)),
    case("other-safety-feature", "Releases", "the safety feature is unknown", play=answered(feature=2), both=(releases("3.6"),)),
    case("altered-mac-of-the-set-up", "Releases", "the MAC of AU3 is wrong", play=answered(wrong=("AU2", "AU3")), centre=(releases("3.3"),), train=(releases("3.2"),)),
    case("altered-mac-of-ar", "Releases", "the MAC of AR is wrong", play=answered(wrong=("AR",)), train=(releases("3.4"),)),
    case("altered-mac-of-a-message", "Releases", "the MAC of a DT is wrong", play=said(lambda end: end.say(b"altered"), wrong=("DT",)), both=(releases("4.1"),)),
    case("turned-direction-flag", "Releases", "a SaPDU with the direction flag of its receiver", play=said(turned_flag), both=(releases("4.2"),)),
    case("unexpected-sapdu", "Releases", "a SaPDU that is not expected now", play=said(unexpected), both=(releases("5.1"),)),
    case("no-sapdu", "Releases", "octets that are no SaPDU", play=said(lambda end: end.message(b"\xff" * 12)), both=(releases("5.2"),)),
    case("replayed-session", "Releases", "the MAC of AU3 is wrong", play=plays.replayed, centre=(releases("3.3"), count_of_sessions(2)),
         train=(releases("3.2"), count_of_sessions(2))),
)
BY_NAME = {each.name: each for each in CASES}


def printed():
    """The table in lines: each rule, and below it the cases that try it, with the role of the device where it is one alone."""
    rules = {}
    for each in CASES:
        role = "" if len(each.wanted) == 2 else f" ({next(iter(each.wanted))})"
        rules.setdefault(each.rule, []).append(each.name + role)
    for (section, words), names in rules.items():
        yield f"{section}: {words}"
        yield from textwrap.wrap(", ".join(names), 110, initial_indent="    ", subsequent_indent="    ", break_on_hyphens=False)


if __name__ == "__main__":
    print("\n".join(printed()))
