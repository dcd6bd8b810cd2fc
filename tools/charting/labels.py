"""A frame, a message, and a reason of release in the standards' words."""
from decoding import controls, framing, safety
from decoding.faults import Fault

# Why an end is released, in the words that the program has.
REASONS = {
    "0": "released by the user",
    "1.1": "the set-up of the link was not answered",
    "1.2": "no progress on the link: T1 expired too often in a row",
    "1.3": "a frame that the link may not get",
    "1.4": "the link was disconnected: DISC, DM or FRMR",
    "1.5": "the line ended",
    "1.6": "the line failed",
    "1.7": "the line stalled: too much waited to be sent",
    "2.1": "a DR without the DI of its sender",
    "2.2": "a TPDU that is faulty or may not come now",
    "2.3": "a message above 1,032 octets",
    "2.4": "a faulty network block",
    "3.1": "no key of this engine holds at the radio block centre",
    "3.2": "the MAC of AU2 is wrong: the keys of both ends differ",
    "3.3": "the MAC of AU3 is wrong",
    "3.4": "the MAC of AR is wrong",
    "3.5": "another radio block centre answered than was called",
    "3.6": "the safety feature is unknown",
    "4.1": "the MAC of a DT is wrong",
    "4.2": "a SaPDU with the direction flag of its receiver",
    "5.1": "a SaPDU that is not expected now",
    "5.2": "octets that are no SaPDU",
    "6.1": "the time for the set-up was spent",
}
SHOWN = 5


def reason_words(reason, sub):
    """What a reason and a sub-reason mean; nothing where they are none of the table."""
    return REASONS.get("0" if reason == "0" else f"{reason}.{sub}", "")


def count(number, thing="octet"):
    return f"{number} {thing}{'' if number == 1 else 's'}"


def octets_shown(octets):
    """How many octets, and the first of them."""
    if not octets:
        return "0 octets"
    return f"{count(len(octets))} {octets[:SHOWN].hex()}{'..' if len(octets) > SHOWN else ''}"


def control_words(control):
    """A control field: name, N(S), N(R), and the P/F bit as P of a command and F of a response."""
    numbers = [str(number) for number in (control.send, control.receive) if number is not None]
    bit = [] if not control.poll else ["P" if control.name in controls.COMMANDS else "F"]
    return " ".join([control.name] + numbers + bit)


def tpdu_words(tpdu):
    """A TPDU: its kind and the fields that matter on a look."""
    if tpdu.kind in ("CR", "CC"):
        return f"{tpdu.kind} credit {tpdu.credit} size {tpdu.size}"
    if tpdu.kind == "DT":
        return f"DT {tpdu.number}{' EOT' if tpdu.last else ''}"
    if tpdu.kind == "AK":
        return f"AK {tpdu.number} credit {tpdu.credit}"
    if tpdu.kind in ("DR", "ER"):
        return f"{tpdu.kind} {tpdu.reason}"
    return tpdu.kind


def sapdu_words(sapdu):
    """A SaPDU: its kind, and the reason of a DI, the length of a DT, the ETCS number of who sent an AU1 or AU2."""
    if sapdu.kind == "DI":
        return f"DI {sapdu.reason}.{sapdu.sub}"
    if sapdu.kind == "DT":
        return f"DT (SaPDU) {count(len(sapdu.user))}"
    return sapdu.kind if sapdu.number is None else f"{sapdu.kind} of {sapdu.number}"


def fault_words(fault):
    """A fault, behind the reason that an end would release with."""
    return f"{f'{fault.reason} ' if fault.reason else ''}{fault}"


def _payload(seen, level):
    """What the information of an I frame carries, part by part, each with its kind."""
    if level == "link" or seen.carried is None:
        return [(count(len(seen.information)), "payload")]
    carried, parts = seen.carried, []
    if carried.part:
        parts.append(("part of a TPDU", "part"))
    if carried.tpdu is not None:
        parts.append((tpdu_words(carried.tpdu), carried.tpdu.kind + (" EOT" if carried.tpdu.last else "")))
        if carried.tpdu.kind == "DT" and carried.sapdu is None and seen.fault is None:
            parts.append((count(len(carried.tpdu.user)) + " of a message", "segment"))
    if carried.sapdu is not None:
        parts.append((sapdu_words(carried.sapdu), carried.sapdu.kind))
    return parts


def frame_words(seen, level, order=""):
    """(what a frame carries, the same without numbers). `order` is a word on an I frame that isn't the next one."""
    if seen.control is None:
        return fault_words(seen.fault) if seen.fault else "no frame", "bad"
    parts = [(control_words(seen.control) + (f" ({order})" if order else ""), f"{seen.control.name} {order}")]
    if seen.control.name == "I":
        parts += _payload(seen, level)
    words, kind = " · ".join(part for part, _ in parts), " ".join(part for _, part in parts)
    if seen.fault is not None:
        return f"{words} ! {fault_words(seen.fault)}", f"{kind} fault {seen.fault.name}"
    return words, kind


def sapdu_of(octets):
    """(the words, the kind, the fault or None) of octets that are a SaPDU by themselves, as at level safe."""
    try:
        sapdu = safety.read_sapdu(octets)
    except Fault as fault:
        return "no SaPDU: " + fault_words(fault), "bad", fault
    return sapdu_words(sapdu), sapdu.kind, None


def spelled(frame, octets):
    """The octets of a frame as they stood on the line: those that brought it, where they are one frame; else its content, spelled anew."""
    if len(octets) > 1 and octets[0] == octets[-1] == framing.FLAG and octets.count(framing.FLAG) == 2:
        return octets
    flag, line = bytes([framing.FLAG]), bytearray()
    for octet in frame.content:
        line += bytes([framing.ESCAPE, octet ^ framing.BIT]) if octet in (framing.FLAG, framing.ESCAPE) else bytes([octet])
    if frame.verdict == framing.ABORTED:
        line.append(framing.ESCAPE)
    return flag + bytes(line) + flag


def outcome_words(word, words, octets):
    """(text, more words) of what an end told."""
    forged = ", forged" if words[-1:] == ("forged",) else ""
    if word == "connected":
        return f"connected with {words[0]}{forged}", ""
    if word in ("accepted", "taken"):
        return f"{word} {octets_shown(octets)}{forged}", ""
    if word == "none":
        return "take: none waits", ""
    if word == "refused":
        return "refused: " + _refusal(words), ""
    if word == "released":
        by = ", by the peer" if words[2] == "peer" else ""
        return f"released {words[0]}.{words[1]}{by}", reason_words(words[0], words[1])
    return " ".join((word,) + words), ""


def _refusal(words):
    if words[0] == "released":
        return f"released {words[1]}.{words[2]}"
    if words[0] == "length":
        return f"length {words[1]}"
    return "not connected" if words[0] == "notconnected" else f"{words[1]} wait already"


def event_words(word, words, octets):
    """What a user gave to its end, or what happened to it."""
    if word == "send":
        return "send " + octets_shown(octets)
    if word == "release":
        return f"release, sub-reason {words[0]}"
    if word == "call":
        return f"call RBC {words[1]}"
    if word == "answer":
        return "answer a call"
    if word in ("ended", "fault", "stalled"):
        return {"ended": "the line ended", "fault": "the line failed", "stalled": "the line stalled"}[word]
    if word == "full":
        return f"no room: {words[0]} connections live"
    if word == "unserved":
        return "no user for it"
    return word
