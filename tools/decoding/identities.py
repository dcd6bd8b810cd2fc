"""Who speaks on a link, and since when, as its frames tell: the ETCS numbers in AU1 and AU2, and the moment at which AU1 came.

AU1 and AU2 have the ETCS number of their sender (UNISIG SUBSET-037, peer entity authentication). Neither is verified here.
"""
from . import controls, framing, sources
from .conversation import Conversation

TELLS = {("e", "AU1"): "e", ("r", "AU2"): "r"}


def of_texts(link):
    """The ETCS numbers of the engine, in the first AU1 that it sent, and of the radio block centre, in the first AU2; None for one that didn't come."""
    talk, found = Conversation(), {}
    for item in link.items:
        for seen in talk.feed(item.side, item.octets) if item.kind == sources.OCTETS else ():
            if seen.sapdu is not None and (seen.side, seen.sapdu.kind) in TELLS:
                found.setdefault(seen.side, seen.sapdu.number)
        if len(found) == 2:
            break
    return found.get("e"), found.get("r")


def moment_of_au1(link):
    """The moment at which the engine's first I frame, which has AU1, came to the end that answers; None where the link has no such end or frame."""
    deframer = framing.Deframer()
    for item in link.items:
        if item.kind == sources.OCTETS and item.side == "e" and not item.own:
            for frame in deframer.feed(item.octets):
                control = controls.read_control(frame.body) if frame.intact else None
                if control and control.name == "I":
                    return item.moment
    return None
