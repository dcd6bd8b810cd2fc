"""Runs the commands of the pages' code blocks, and looks whether what the pages link to is there.

A block's first line says what it is, behind its language:

| First line | What it is |
|---|---|
| ```sh | commands, one a line (a line that ends in \\ goes on); each must end with 0, and is run in an own shell at the top of a copy |
| ```sh stays | the same in a terminal of its own: it runs beside the commands behind it, until one of them ends it, or the page ends |
| ```text printed | what the command before printed, or wrote to the file that it wrote to |
| ```text begins | what that begins with |
| ```text is PATH | what this file of the repository holds |
| ```c of PATH, ```rust of PATH, .. | lines that stand so, one behind the other, in this file, which may indent all of them |
| ```text | a text that isn't run |

A block without a language is refused, and one of a program that doesn't say where its lines stand, so that none is left out by oversight. What isn't run is in the lists here.
"""
import os
import re
import shutil
import signal
import subprocess
import sys
import tempfile
import time

sys.dont_write_bytecode = True
TOP = os.path.dirname(os.path.dirname(os.path.abspath(__file__)))
PAGES = ("README.md", "docs/FORMATS.md", "docs/SPEED.md", "docs/RUNNING.md", "docs/LABORATORY.md")

LINK = re.compile(r"\]\(((?!\w+:)[^)\s]+)\)")

# Commands that aren't run, by how they begin, and why.
LEFT_OUT = {
    "bash .ci/run": "the gate, which runs this script",
    "bash tests/quick.sh": "runs this script",
    "bash tests/program.sh": "what it makes is there: the program that is tried",
    "(cd crates/euroradio && rt ": "the toolchain would prove this copy anew; the gate proves, builds and runs the program before",
    "wireshark ": "opens a window",
    "sudo ": "changes the machine",
}
# Commands that are run where what they name is installed.
WANTED = ("tshark", "haproxy", "systemd-analyze", "rt", "tcpdump", "openssl")
MOST_SECONDS = 900


class Pages:
    def __init__(self, folder):
        self.folder = folder
        self.passed = self.failed = 0
        self.staying = []
        self.out = os.path.join(folder, ".printed")

    def check(self, holds, what):
        if holds:
            self.passed += 1
        else:
            self.failed += 1
            print("failed:", what)

    def page(self, path):
        printed = None
        for number, info, lines in blocks(path):
            where = f"{path}:{number}"
            if not info:
                self.check(False, f"{where}: a block that doesn't say what it is")
            elif info[0] == "sh":
                for command in commands(lines):
                    printed = self.command(where, command, info[1:] == ["stays"])
            elif info[1:2] == ["is"]:
                with open(os.path.join(TOP, info[2])) as file:
                    self.check(file.readlines() == lines, f"{where}: {info[2]} holds something else")
            elif info[1:2] == ["of"]:
                with open(os.path.join(TOP, info[2])) as file:
                    self.check(is_quoted(lines, file.readlines()), f"{where}: {info[2]} has no such lines")
            elif info[1:] in (["printed"], ["begins"]):
                self.compare(where, printed, "".join(lines), info[1])
            elif info[0] != "text":
                self.check(False, f"{where}: lines of a program that don't say where they stand")
        self.end()

    def links(self, path):
        """Each link of a page to a file of the repository, and to a heading in it."""
        for target in LINK.findall(read(path)):
            name, _, heading = target.partition("#")
            to = os.path.normpath(os.path.join(os.path.dirname(path), name)) if name else path
            self.check(os.path.exists(os.path.join(TOP, to)), f"{path}: there is no {target}")
            if heading:
                self.check(heading in [anchor(line) for line in read(to).split("\n") if line.startswith("#")], f"{path}: {to} has no heading {heading}")

    def command(self, where, command, stays):
        """Runs a command; answers what it printed, None where it wasn't run."""
        why = left_out(command)
        if why:
            print(f"{where}: not run, {why}: {command}")
            return None
        begin = time.monotonic()
        with open(self.out, "wb") as out:
            child = subprocess.Popen(["bash", "-c", command], cwd=self.folder, stdout=out, stderr=subprocess.PIPE, start_new_session=True)
        if stays:
            self.staying.append((where, command, child))
            time.sleep(1)
            self.check(child.poll() is None, f"{where}: ended at once: {command}")
            return None
        try:
            said = child.communicate(timeout=MOST_SECONDS)[1].decode(errors="replace")
        except subprocess.TimeoutExpired:
            os.killpg(child.pid, signal.SIGKILL)
            said = f"killed after {MOST_SECONDS} seconds"
        taken = time.monotonic() - begin
        self.check(child.returncode == 0, f"{where}: status {child.returncode}: {command}\n{said[-2000:]}")
        if taken > 60:
            print(f"{where}: took {taken:.0f} seconds: {command}")
        to = re.search(r" > (\S+)$", command)
        with open(os.path.join(self.folder, to[1]) if to else self.out, "rb") as text:
            return text.read().decode(errors="replace")

    def compare(self, where, printed, wanted, how):
        if printed is None:
            print(f"{where}: not compared, since the command before wasn't run")
            return
        same = printed == wanted if how == "printed" else printed.startswith(wanted)
        self.check(same, f"{where}: other text was printed:\n{printed[:1000]}")

    def end(self):
        """Ends what stays."""
        for where, command, child in self.staying:
            if child.poll() is None:
                os.killpg(child.pid, signal.SIGTERM)
            try:
                said = child.communicate(timeout=60)[1].decode(errors="replace")
                self.check(child.returncode in (0, -signal.SIGTERM), f"{where}: status {child.returncode}: {command}\n{said[-2000:]}")
            except subprocess.TimeoutExpired:
                os.killpg(child.pid, signal.SIGKILL)
                self.check(False, f"{where}: doesn't end: {command}")
        self.staying.clear()


def read(path):
    with open(os.path.join(TOP, path)) as page:
        return page.read()


def anchor(heading):
    """By what a link names a heading."""
    return re.sub(r"[^\w -]", "", heading.lstrip("# ")).lower().replace(" ", "-")


def blocks(path):
    """(number of its first line, the words behind ```, its lines) of each code block of a page."""
    info, found = None, []
    with open(os.path.join(TOP, path)) as page:
        for number, line in enumerate(page, 1):
            if not line.startswith("```"):
                found.append(line)
            elif info is None:
                info, found, begin = line[3:].split(), [], number
            else:
                yield begin, info, found
                info = None


def is_quoted(lines, whole):
    """Whether these lines stand so in a file, each with as many spaces before it as the first, or empty."""
    if not lines:
        return False
    for start in range(len(whole) - len(lines) + 1):
        first = whole[start]
        spaces = first[: len(first) - len(first.lstrip(" "))]
        if [spaces + line if line.strip() else line for line in lines] == whole[start : start + len(lines)]:
            return True
    return False


def commands(lines):
    """The commands of a block; empty lines and comments are none."""
    text = "".join(lines).replace("\\\n", "")
    return [line for line in text.split("\n") if line.strip() and not line.startswith("#")]


def left_out(command):
    """Why a command isn't run, or None."""
    for begin, why in LEFT_OUT.items():
        if command.startswith(begin):
            return why
    for word in WANTED:
        if re.search(rf"(^|[ (|])(/usr/sbin/)?{word} ", command) and not shutil.which(word, path=os.environ["PATH"] + ":/usr/sbin"):
            return f"{word} isn't installed"
    return None


def linked(source, folder, without=()):
    """The folder has a link to each file and folder of the source."""
    os.makedirs(folder, exist_ok=True)
    for name in os.listdir(source):
        if name not in without:
            os.symlink(os.path.join(source, name), os.path.join(folder, name))


def copied(folder, program):
    """A copy of the top in which the program that is tried stands where `tests/program.sh` leaves one."""
    linked(TOP, folder, ("out",))
    os.mkdir(os.path.join(folder, "out"))
    os.symlink(os.path.abspath(program), os.path.join(folder, "out/euroradio"))


def with_program(folder, program):
    """Another program stands in the built one's place in this copy, and no command builds one."""
    LEFT_OUT["(cd crates/euroradio && rt "] = "another program is tried"
    os.remove(os.path.join(folder, "crates"))
    linked(os.path.join(TOP, "crates"), os.path.join(folder, "crates"), ("euroradio",))
    linked(os.path.join(TOP, "crates/euroradio"), os.path.join(folder, "crates/euroradio"), ("out",))
    os.mkdir(os.path.join(folder, "crates/euroradio/out"))
    os.symlink(os.path.abspath(program), os.path.join(folder, "crates/euroradio/out/euroradio"))


def main():
    program = os.environ.get("PROGRAM")
    with tempfile.TemporaryDirectory() as folder:
        copied(folder, program or os.path.join(TOP, "crates/euroradio/out/euroradio"))
        if program:
            with_program(folder, program)
        os.environ["PATH"] += ":/usr/sbin"
        pages = Pages(folder)
        for path in PAGES:
            pages.page(path)
        for path in ["README.md"] + [f"docs/{name}" for name in sorted(os.listdir(os.path.join(TOP, "docs"))) if name.endswith(".md")]:
            pages.links(path)
    print(f"{pages.passed} passed, {pages.failed} failed")
    return 1 if pages.failed or not pages.passed else 0


if __name__ == "__main__":
    sys.exit(main())
