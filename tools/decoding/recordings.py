"""Recordings of `serve` or `call`, read event by event: a header, and then each event with its outcomes, which the program writes at once.

A recording may end in the midst of such a write, where the program was killed or its disk was full, and then with a line that says why it
ended. What is no whole event is left out, and told.
"""
from dataclasses import dataclass, field
from typing import List

from . import sources

LONGEST = 16_777_216
OPENINGS = ("call", "answer", "full", "unserved")


@dataclass
class Event:
    """An event of the connection `conn`: its line, and those of its outcomes."""

    line: int
    conn: int
    lines: List[bytes] = field(default_factory=list)


class Recording:
    """A recording, an iterable of lines that end in LF, read once: its header, its events, and what is told of the rest."""

    def __init__(self, lines):
        self.lines = enumerate(lines, 1)
        self.told = []
        self.opened = set()
        self.event = None
        self.header = self._header()

    def events(self):
        """The whole events, in order. Behind the last one all that is to be told was told."""
        if self.header is None:
            return
        for number, line in self.lines:
            whole = self._line(number, line)
            if whole is not None:
                yield whole
        if self.event is not None:
            yield self.event

    def _tell(self, number, why):
        self.told.append(sources.BadLine(number, why))

    def _header(self):
        for number, line in self.lines:
            words = _words(line)
            if not words:
                continue
            try:
                sources.trace_header(words)
                if line.endswith(b"\n"):
                    return line
                self._tell(number, "the header is cut; nothing is left")
            except sources.BadWord as why:
                self._tell(number, str(why))
            return None
        self._tell(1, "no line")
        return None

    def _line(self, number, line):
        """The event that was whole before this line, where the line begins the next one."""
        words = _words(line)
        if not line.endswith(b"\n"):
            self._cut(number, line)
        elif not words:
            return None
        elif words[0] == "!":
            self._tell(number, f"left out: {' '.join(words)[:60]}")
        elif words[0] == "trace":
            self._tell(number, "another recording begins here; it and what is behind it are left out")
            for _ in self.lines:
                pass
        else:
            return self._told(number, line, words)
        return None

    def _cut(self, number, line):
        """The last line is cut. With an outcome the whole event is left out, since its write wasn't done."""
        shown = line[:40].decode("latin-1") + (".." if len(line) > 40 else "")
        self._tell(number, f"the recording is cut in this line, which is left out: {shown}")
        if line.startswith(b"<") and self.event is not None:
            self._tell(self.event.line, f"left out, since its outcomes are cut: {self.event.lines[0][:60].decode('latin-1').rstrip()}")
            self.event = None

    def _told(self, number, line, words):
        try:
            if words[0] not in (">", "<"):
                raise sources.BadWord(f"no line of a trace: {words[0][:40]}")
            told = sources.trace_line(words)
            if words[0] == ">":
                self._opens(told)
        except sources.BadWord as why:
            self._tell(number, str(why))
            return None
        if words[0] == ">":
            whole, self.event = self.event, Event(number, told.conn, [line])
            return whole
        if self.event is None or self.event.conn != told.conn:
            self._tell(number, f"an outcome of connection {told.conn} without its event")
        else:
            self.event.lines.append(line)
        return None

    def _opens(self, told):
        if told.word in OPENINGS and told.conn in self.opened:
            raise sources.BadWord(f"connection {told.conn} is opened twice")
        if told.word in OPENINGS:
            self.opened.add(told.conn)
        elif told.conn not in self.opened:
            raise sources.BadWord(f"connection {told.conn} wasn't opened by call or answer")


def _words(line):
    """The words of a line; none of a comment."""
    if line.startswith(b"#"):
        return []
    return [word for word in line.decode("latin-1").rstrip("\n").split(" ") if word]
