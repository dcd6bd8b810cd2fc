"""For functions.sh beside it: functions.py [COMMAND..].

The toolchain writes each module of a check into a folder as soon as the module is done: into the one that `--incremental` names, else into one of its
own below the temporary folder, which it takes away with the check. So the processor time between two modules is what the later one took, where a
check has one thread. It is read each second, and between two readings taken to go by evenly."""
import bisect
import collections
import glob
import os
import subprocess
import sys
import tempfile
import time

from minutes import folder_of, is_gate, kind_of, stat_of, words_of

# The modules of one function, behind its name.
PARTS = set(
    "Answers Code Given Goals Hidden Instances Invariants Key Kinds Layout Lts Met Mir Named Proof Reads Spans Statement Symbol TheLink Tie View".split()
)
SHOWN = 40


class Check:
    """A check that runs or ran: its crate, its stage, and when each of its modules was written."""

    def __init__(self, process, words, folder):
        self.process, self.kind, self.begun = process, kind_of(words, folder), time.time()
        self.modules, self.moments, self.times = {}, [], []
        if "--incremental" in words:
            self.folders = os.path.join(folder, words[words.index("--incremental") + 1], "antt-checked-*")
        else:
            self.folders = os.path.join(tempfile.gettempdir(), f"rattle-logic-built-locked-{process}-*")

    def look(self):
        if found := stat_of(self.process):
            self.moments.append(time.time())
            self.times.append(found[2])
        for folder in glob.glob(self.folders):
            try:
                with os.scandir(folder) as entries:
                    for entry in entries:
                        if not entry.name.endswith(".oantt") or entry.name in self.modules:
                            continue
                        # What is older is of checks before this one.
                        if (when := entry.stat().st_mtime) >= self.begun:
                            self.modules[entry.name] = when
            except OSError:
                pass

    def time_at(self, moment):
        """The processor time that was spent by a moment."""
        at = bisect.bisect(self.moments, moment)
        if at == 0 or at == len(self.moments):
            return self.times[min(at, len(self.times) - 1)]
        begin, end = self.moments[at - 1:at + 1]
        return self.times[at - 1] + (self.times[at] - self.times[at - 1]) * (moment - begin) / (end - begin)

    def functions(self):
        """Seconds by function and part. What stands in no function's folder counts by its module."""
        found = collections.defaultdict(collections.Counter)
        if not self.moments:
            return found
        written = sorted((self.time_at(when), name) for name, when in self.modules.items())
        for (before, _), (when, name) in zip(written, written[1:]):
            words = name[:-len(".oantt")].removeprefix(f"Rattle-{self.kind[0]}-").removeprefix("proofs.").split(".")
            part = words[-1] if words[-1] in PARTS else "lemmas"
            while len(words) > 1 and words[-1] in PARTS:
                words.pop()
            found[".".join(words)][part] += when - before
        return found


def is_below(process, top):
    while process != top:
        found = stat_of(process)
        if not found:
            return False
        process = found[0]
    return True


def look_at_all(checks, top):
    for name in os.listdir("/proc"):
        if name.isdigit() and name not in checks and is_below(int(name), top):
            words, folder = words_of(name), folder_of(name)
            if kind_of(words, folder):
                checks[name] = Check(int(name), words, folder)
    for check in checks.values():
        check.look()


def printed(checks):
    rows = [(sum(parts.values()), *check.kind, function, parts) for check in checks.values() for function, parts in check.functions().items()]
    lines = ["| Seconds | Crate | Stage | Function | of which |", "|---|---|---|---|---|"]
    for seconds, crate, stage, function, parts in sorted(rows, key=lambda row: -row[0])[:SHOWN]:
        dearest = ", ".join(f"{part} {took:.1f}" for part, took in parts.most_common(3))
        lines.append(f"| {seconds:.1f} | {crate} | {stage} | `{function}` | {dearest} |")
    return "\n".join(lines)


def main():
    words = sys.argv[1:]
    child = subprocess.Popen(words) if words else None
    top = child.pid if child else next((int(it) for it in os.listdir("/proc") if it.isdigit() and is_gate(words_of(it))), None)
    if top is None:
        print("no `rt ci` runs on this machine", file=sys.stderr)
        return 1
    checks = {}
    while stat_of(top) and (child is None or child.poll() is None):
        look_at_all(checks, top)
        time.sleep(1)
    print(printed(checks))
    return child.returncode if child else 0


if __name__ == "__main__":
    sys.exit(main())
