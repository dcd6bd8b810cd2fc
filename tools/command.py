"""What the tools beside this file share: their words, the file that they read, what they tell, and the status that they end with.

| Status | When |
|---|---|
| 0 | all was read |
| 1 | something was told |
| 2 | the words are wrong |
| 3 | a file, or the standard input or output, can't be read or written |

What is told stands on the standard error, a line each, with control octets escaped. A tool never ends with a traceback.
"""
import sys

if sys.version_info < (3, 10):
    sys.exit("Python 3.10 or later is wanted")

import argparse  # noqa: E402
import os  # noqa: E402
import re  # noqa: E402
import traceback  # noqa: E402

from decoding.sources import printable  # noqa: E402

TOLD, WRONG, FAILED, INTERRUPTED = 1, 2, 3, 130
MOST_DIGITS = 20


class Fault(Exception):
    """Why a tool can't go on: a file and what is wrong with it."""


class Words(argparse.ArgumentParser):
    """The words of a tool: options, a number and a file, each of which may be left out. `doc` is the tool's text, whose third line is its usage."""

    def __init__(self, doc, number, wanted):
        super().__init__(usage=doc.split("\n")[2].removeprefix("Usage: "), description=doc.split("\n\n", 2)[2],
                         formatter_class=argparse.RawDescriptionHelpFormatter)
        self.number = number
        self.add_argument("words", nargs="*", metavar=f"{number} FILE",
                          help=f"{wanted}; the file that is read, and `-` or none: the standard input. A word of digits alone is {number}")

    def print_help(self, file=None):
        """Prints the help; a write that fails is told, which argparse doesn't do."""
        (file or sys.stdout).write(self.format_help())

    def call(self):
        """The words of this call: the options, and `number` and `file`, None where they are left out."""
        call = self.parse_intermixed_args()
        numbers = [word for word in call.words if re.fullmatch("[0-9]+", word)]
        files = [word for word in call.words if not re.fullmatch("[0-9]+", word)]
        if len(numbers) > 1 or len(files) > 1:
            self.error(f"one {self.number} and one FILE are wanted at most")
        if numbers and len(numbers[0]) > MOST_DIGITS:
            self.error(f"no {self.number}: {numbers[0][:MOST_DIGITS]}..")
        call.number, call.file = int(numbers[0]) if numbers else None, files[0] if files else None
        return call


def port(word):
    """The port that a word names; for argparse."""
    if not (word.isascii() and word.isdigit() and len(word) <= 5 and 1 <= int(word) <= 65535):
        raise argparse.ArgumentTypeError(f"no port, 1 to 65535: {printable(word[:40])}")
    return int(word)


def lines_of(name):
    """The lines of a file, or of the standard input where its name is `-` or None, one by one, as octets. Raises Fault."""
    is_input = name in (None, "-")
    try:
        if not is_input:
            with open(name, "rb") as file:
                yield from file
        elif sys.stdin is None:
            raise Fault("the standard input is closed")
        else:
            yield from sys.stdin.buffer
    except OSError as why:
        raise Fault(f"{'the standard input' if is_input else name}: {why.strerror}") from None


def octets_of(name):
    """The octets of a file, or of the standard input. Raises Fault."""
    return b"".join(lines_of(name))


def write_file(path, pieces, is_begun=False):
    """Writes a file of these octets, or adds them to one that is begun; makes its folder. Raises Fault."""
    try:
        os.makedirs(os.path.dirname(path) or ".", exist_ok=True)
        with open(path, "ab" if is_begun else "wb") as file:
            file.writelines(pieces)
    except OSError as why:
        raise Fault(f"{why.filename or path}: {why.strerror}") from None


def tell(lines):
    """Tells these lines; answers the status that is due."""
    lines = [printable(str(line)) for line in lines]
    try:
        sys.stderr.writelines(line + "\n" for line in lines)
    except (OSError, AttributeError):
        pass  # the standard error is closed: nobody can be told
    return TOLD if lines else 0


def _status_of(main):
    """The status of a tool; whatever ends it before its end is told in a line."""
    name = os.path.basename(sys.argv[0])
    try:
        if sys.stdout is None:
            raise Fault("the standard output is closed")
        status = main()
        sys.stdout.flush()
        return status
    except SystemExit as end:
        return end.code
    except KeyboardInterrupt:
        return INTERRUPTED
    except Fault as why:
        tell([f"{name}: {why}"])
    except OSError as why:
        tell([f"{name}: {why.filename or 'the standard output'}: {why.strerror}"])
    except MemoryError:
        tell([f"{name}: there isn't enough memory"])
    except Exception as why:  # noqa: BLE001
        place = traceback.extract_tb(why.__traceback__)[-1]
        tell([f"{name}: a fault of this tool, at {os.path.basename(place.filename)}:{place.lineno}: {why!r}"])
    return FAILED


def run(main):
    """Runs a tool, and ends the process with its status."""
    status = _status_of(main)
    for place, stream in ((1, sys.stdout), (2, sys.stderr)):
        try:
            stream.flush()
        except (OSError, AttributeError):
            if place == 1 and stream is not None and status in (0, None):
                status = FAILED
            # What is left in the stream isn't tried again as Python ends.
            os.dup2(os.open(os.devnull, os.O_WRONLY), place)
    sys.exit(status)
