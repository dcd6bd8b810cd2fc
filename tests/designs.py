"""For designs.sh beside it: designs.py [--all] [NAME..]."""
import concurrent.futures
import glob
import os
import re
import shutil
import subprocess
import sys
import tempfile
import threading

import quick

sys.dont_write_bytecode = True
DESIGNS = os.path.join(quick.TOP, "tests", "designs")
UNSEEN = "Not seen by a run: "
# Scripts in the order in which they are tried, the shortest first. Those of the second list open sockets, and come first for what only a connection shows.
OF_DRILLS = ("drill-and-replay.sh", "accepts.sh", "drill-and-audit.sh", "chart.sh", "lab.sh")
OF_SOCKETS = ("sockets.sh", "running.sh", "operation.sh", "haproxy.sh", "little-memory.sh")
CRATES_OF_SOCKETS = ("mio_wires", "euroradio", "readiness_loop", "loop_session", "loop_io", "er_serving", "er_users")
TESTS = ("test_layers", "test_program", "test_loop", "test_wires")


def read_head(path):
    """The first lines of a patch without their marks, and the files that it changes."""
    with open(path) as text:
        lines = text.read().split("\n")
    head = []
    while lines and lines[0].startswith("# "):
        head.append(lines.pop(0)[2:])
    return head, [line[6:] for line in lines if line.startswith("+++ b/")]


class Design:
    def __init__(self, name, work):
        self.name = name
        self.path = os.path.join(DESIGNS, f"{name}.patch")
        self.work = os.path.join(work, name)
        self.copy = os.path.join(self.work, "copy")
        self.head, self.files = read_head(self.path)
        self.unseen = next((line.removeprefix(UNSEEN) for line in self.head if line.startswith(UNSEEN)), None)
        self.refused = []

    def said(self, text):
        print(f"{self.name}: {text}", flush=True)

    def write_copy(self):
        """A copy of the crates with the patch applied; what it told where it doesn't apply."""
        shutil.copytree(os.path.join(quick.TOP, "crates"), os.path.join(self.copy, "crates"), ignore=shutil.ignore_patterns("out"))
        for name in ("crates.txt", "HANDLES"):
            shutil.copy(os.path.join(quick.TOP, name), self.copy)
        words = ["git", "apply", "-C1", self.path]
        applied = subprocess.run(words, cwd=self.copy, capture_output=True, text=True, check=False, env={**os.environ, "GIT_CEILING_DIRECTORIES": self.work})
        return None if applied.returncode == 0 else applied.stderr.strip()

    def is_of_sockets(self):
        return any(path.split("/")[1] in CRATES_OF_SOCKETS for path in self.files)

    def scripts(self):
        """The scripts that may see it, in the order in which they are tried."""
        return (*OF_SOCKETS, *OF_DRILLS) if self.is_of_sockets() else (*OF_DRILLS, *OF_SOCKETS)

    def tries(self, compiled, script, program, unchanged):
        """Whether a script refuses the program; what it said of it joins what is told. Scripts of sockets fail by chance where the machine is busy: they
        refuse nothing where the unchanged program doesn't pass them beside it."""
        status, printed, told = compiled.run(script, ["bash", os.path.join(quick.TOP, "tests", script)], PROGRAM=program)
        lines = printed.decode(errors="replace").strip().split("\n")
        if status == 0:
            return False
        if script in OF_SOCKETS and not unchanged.passes(script):
            self.said(f"{script} fails on the unchanged program too")
            return False
        rows = re.findall(r"^row (.*): status", "\n".join(lines), flags=re.M)
        first = next((line[:160] for line in lines if re.match("failed|FAILED", line)), lines[-1])
        shown = ", ".join(rows[:6]) + (f" and {len(rows) - 6} more" if len(rows) > 6 else "") if rows else first or told.strip()[-160:]
        self.refused.append(f"{script} ({shown})")
        return True

    def tried_in_memory(self, every):
        """The tests in memory that refuse it: compiled as quick.sh does, one crate at a time."""
        rows = quick.rows_of_crates()
        for crate in reversed(TESTS) if self.is_of_sockets() else TESTS:
            compiled = quick.Quick(os.path.join(self.work, crate), self.copy)
            os.makedirs(compiled.work)
            compiled.write_tree(crate + "_tried", [crate], rows, [])
            words = ["rt", "try", "--test"]
            status, printed, told = compiled.run(crate, words, os.path.join(compiled.tree, "crates", crate + "_tried"))
            lines = [line for line in (printed.decode(errors="replace") + told).split("\n") if line.startswith("test ") and not line.endswith(" ... ok")]
            if status != 0:
                self.refused.append(f"tests of {crate} ({', '.join(line.split()[1] for line in lines[:3]) or f'status {status}'})")
                if not every:
                    return

    def judged(self, every, unchanged):
        """Applies, compiles and tries it: whether all is as it should be."""
        os.makedirs(self.work)
        refusal = self.write_copy()
        if refusal:
            self.said(f"FAILED: it no longer applies: {refusal}")
            return False
        compiled = quick.Quick(self.work, self.copy)
        compiled.tell = lambda name, holds, said, more="": None if holds else self.said(f"{name}: {said}\n{more}")
        # Without optimization half of what the last step takes is saved, and drills take no longer.
        program = compiled.unproved("-O1" if self.is_of_sockets() else "-O0")
        if program is None:
            self.said("FAILED: it doesn't compile")
            return False
        if self.unseen and not every:
            self.said(f"not seen by a run: {self.unseen}")
            return True
        refused = self.tries(compiled, "rows.sh", program, unchanged)
        for script in self.scripts():
            if every or not refused:
                refused = self.tries(compiled, script, program, unchanged) or refused
        if every or not refused:
            self.tried_in_memory(every)
        if self.unseen:
            self.said("FAILED: a run sees it: " + "; ".join(self.refused) if self.refused else f"not seen by a run: {self.unseen}")
            return not self.refused
        self.said("refused by " + "; ".join(self.refused) if self.refused else "FAILED: nothing refuses it")
        return bool(self.refused)


class Unchanged:
    """The program of this tree as it stands, which PROGRAM names, or which is compiled when it is first asked for."""

    def __init__(self, work):
        self.work = os.path.join(work, "unchanged")
        self.lock = threading.Lock()
        self.program = os.environ.get("PROGRAM")
        self.compiled = None
        self.passed = {}

    def passes(self, script):
        with self.lock:
            if script not in self.passed:
                if self.compiled is None:
                    os.makedirs(self.work)
                    self.compiled = quick.Quick(self.work)
                    self.program = os.path.realpath(self.program) if self.program else self.compiled.unproved()
                status = self.compiled.run(script, ["bash", os.path.join("tests", script)], PROGRAM=self.program)[0] if self.program else 1
                self.passed[script] = status == 0
            return self.passed[script]


def judge(name, work, flags, unchanged):
    """One design, and its copy is removed."""
    design = Design(name, work)
    try:
        return design.judged("--all" in flags, unchanged)
    except Exception as fault:  # noqa: BLE001
        design.said(f"FAILED: {fault!r}")
        return False
    finally:
        shutil.rmtree(design.work, ignore_errors=True)


def main():
    flags = {word for word in sys.argv[1:] if word.startswith("--")}
    wanted = [os.path.basename(word).removesuffix(".patch") for word in sys.argv[1:] if not word.startswith("--")]
    names = sorted(os.path.basename(path).removesuffix(".patch") for path in glob.glob(os.path.join(DESIGNS, "*.patch")))
    unknown = [*(flags - {"--all"}), *(name for name in wanted if name not in names)]
    if unknown:
        print(f"designs.sh: unknown: {', '.join(unknown)}")
        return 1
    with tempfile.TemporaryDirectory(prefix="designs-") as work:
        unchanged = Unchanged(work)
        with concurrent.futures.ThreadPoolExecutor(int(os.environ.get("DESIGNS_AT_ONCE", "1"))) as lanes:
            good = list(lanes.map(lambda name: judge(name, work, flags, unchanged), wanted or names))
    print(f"{sum(good)} passed, {len(good) - sum(good)} failed")
    return 0 if good and all(good) else 1


if __name__ == "__main__":
    sys.exit(main())
