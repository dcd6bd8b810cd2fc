"""T1 of a station, as its frames tell it (ISO/IEC 13239, time-out recovery): how long it waited before it sent its oldest frame again that isn't acknowledged.

T1 runs from a set-up frame, or from an I frame where it doesn't run yet; an acknowledgement of something new starts it anew, or ends it where nothing is left.
What a REJ or SREJ asked for comes again without it. So each time is that between two moments of the record, and has the way of the frames in it.
"""
SET_UP = ("SABM", "SABME")


class Timer:
    """T1 of one station of a link. It is told each frame that the station sent, and each that came to it, in order, with its moment in milliseconds."""

    def __init__(self):
        self.waiting = []
        self.begun = None
        self.is_asked = False

    def sent(self, seen, moment):
        """Takes a frame that the station sent; answers how long T1 ran where that is why it comes again, else None."""
        name = seen.control.name if seen.control else ""
        key = name if name in SET_UP else seen.control.send if name == "I" else None
        if key is None:
            return None
        if key not in self.waiting:
            self.waiting = [key] if name in SET_UP else self.waiting + [key]
            self.begun = moment if self.begun is None or name in SET_UP else self.begun
            return None
        if key != self.waiting[0]:
            return None
        ran, was_asked = moment - self.begun, self.is_asked
        self.begun, self.is_asked = moment, False
        return None if was_asked else ran

    def heard(self, seen, moment, modulo=8):
        """Takes a frame that came to the station."""
        name = seen.control.name if seen.control and (seen.fault is None or seen.fault.name != "stray address") else ""
        if name == "UA" and self.waiting[:1] and self.waiting[0] in SET_UP:
            self.waiting, self.begun = [], None
        elif name and seen.control.receive is not None:
            self._acknowledged(seen.control.receive, moment, modulo)
            if name in ("REJ", "SREJ") and self.waiting:
                self.begun, self.is_asked = moment, True

    def _acknowledged(self, receive, moment, modulo):
        """N(R) acknowledges all frames before the one of its number."""
        among = range(1, len(self.waiting) + 1)
        before = [place for place, number in enumerate(self.waiting) if number not in SET_UP and (receive - number) % modulo in among]
        if before:
            self.waiting = self.waiting[before[-1] + 1:]
            self.begun, self.is_asked = moment if self.waiting else None, False
