"""What the tools share: their words, files that can't be read or written, closed streams, and control octets in what is told."""
import os
import subprocess
import sys
import tempfile

SESSION = "examples/recorded-session.trace"
TOOLS = {"pcap": [], "tap": [], "chart": ["--html"], "recording": ["--whole"]}


def run_of(tool, *words, **how):
    """Status, what is printed and what is told."""
    how = {"stdin": subprocess.DEVNULL, "stdout": subprocess.PIPE, "stderr": subprocess.PIPE, **how}
    run = subprocess.run([sys.executable, f"tools/{tool}", *words], check=False, **how)
    return run.returncode, run.stdout, run.stderr.decode() if run.stderr is not None else None


def by_shell(tool, words, rest):
    """Status and what is told of a tool in a command of the shell: `{}` is the tool with its words."""
    command = rest.format(" ".join([sys.executable, f"tools/{tool}", *words]))
    run = subprocess.run(["bash", "-c", command], stdout=subprocess.DEVNULL, stderr=subprocess.PIPE, check=False)
    return run.returncode, run.stderr.decode()


def words(judge, tool, options):
    with open(SESSION, "rb") as file:
        text = file.read()
    run = subprocess.run([sys.executable, f"tools/{tool}", *options], input=text, capture_output=True, check=False)
    wanted = run.returncode, run.stdout, run.stderr.decode()
    judge.same(f"{tool}: the session from the standard input", (wanted[0], wanted[2], len(wanted[1]) > 3000), (0, "", True))
    judge.same(f"{tool}: from a file", run_of(tool, *options, SESSION), wanted)
    with open(SESSION, "rb") as file:
        judge.same(f"{tool}: from `-`", run_of(tool, *options, "-", stdin=file), wanted)
    part = [] if tool in ("chart", "recording") else options
    one = run_of(tool, *part, "2", SESSION)
    judge.same(f"{tool}: a number and a file, in either order", (one, one[0], one[1] != wanted[1]), (run_of(tool, SESSION, *part, "2"), 0, True))
    judge.same(f"{tool}: two numbers, two files, a number that is too long", [run_of(tool, *given)[0] for given in (["1", "2"], ["a", "b"], ["9" * 5000])], [2, 2, 2])
    status, printed, told = run_of(tool, "--help")
    judge.same(f"{tool}: the help", (status, f"usage: tools/{tool}" in printed.decode(), told), (0, True, ""))


def files(judge, tool, options):
    for name, why in (("/none", "No such file or directory"), ("tests", "Is a directory")):
        judge.same(f"{tool}: {name}", run_of(tool, *options, name), (3, b"", f"{tool}: {name}: {why}\n"))
    judge.same(f"{tool}: a file whose name has control octets", run_of(tool, *options, "\x1b[2J\n"), (3, b"", f"{tool}: \\x1b[2J\\n: No such file or directory\n"))
    judge.same(f"{tool}: no standard input", by_shell(tool, options, "{} <&-"), (3, f"{tool}: the standard input is closed\n"))
    judge.same(f"{tool}: no standard output", by_shell(tool, options, f"{{}} {SESSION} >&-"), (3, f"{tool}: the standard output is closed\n"))
    judge.same(f"{tool}: no standard error", by_shell(tool, options, "{} /none 2>&-"), (3, ""))
    judge.same(f"{tool}: a full disk", by_shell(tool, options, f"{{}} {SESSION} > /dev/full"), (3, f"{tool}: the standard output: No space left on device\n"))
    judge.same(f"{tool}: a full disk, and the help", by_shell(tool, ["--help"], "{} > /dev/full"), (3, f"{tool}: the standard output: No space left on device\n"))
    # The reader is gone before the tool writes.
    told = by_shell(tool, options, f"set -o pipefail; {{ sleep 1; {{}} {SESSION}; }} | true".replace("{ sleep", "{{ sleep").replace("; }", "; }}"))
    judge.same(f"{tool}: a pipe that is closed", told, (3, f"{tool}: the standard output: Broken pipe\n"))


def folders(judge):
    for tool in ("chart", "recording"):
        judge.same(f"{tool}: no such folder", run_of(tool, "--folder", "/proc/none", SESSION), (3, b"", f"{tool}: /proc/none: No such file or directory\n"))
    with tempfile.TemporaryDirectory() as folder:
        for tool, name in (("chart", "connection-1.svg"), ("recording", "connection-1.trace")):
            os.symlink("/dev/full", os.path.join(folder, name))
            judge.same(f"{tool}: a disk that is full", run_of(tool, "--folder", folder, SESSION),
                       (3, b"", f"{tool}: {folder}/{name}: No space left on device\n"))


def texts(judge, tool, options):
    """The first line that is no header ends the reading; control octets are escaped."""
    run = subprocess.run([sys.executable, f"tools/{tool}", *options], input=b"\x1b[2J\x07\x9b\n" * 50, capture_output=True, check=False)
    lines = run.stderr.decode().split("\n")[:-1]
    first = [line for line in lines if line.startswith("line 1: ")]
    judge.same(f"{tool}: a text that is none", (run.returncode, len(first), len(lines) - len(first) <= (tool == "tap"), all(map(str.isprintable, lines))),
               (1, 1, True, True))
    status, _, told = run_of(tool, *options)
    judge.same(f"{tool}: no text at all", (status, told.split("\n")[0]), (1, "line 1: no line"))


def run(judge):
    for tool, options in TOOLS.items():
        words(judge, tool, options)
        files(judge, tool, options)
        texts(judge, tool, options)
    folders(judge)
