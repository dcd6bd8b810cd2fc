"""For minutes.sh beside it: minutes.py [COMMAND..]."""
import collections
import os
import subprocess
import sys
import time

TICKS = os.sysconf("SC_CLK_TCK")
STAGES = ("proof", "tests", "seed", "edits", "programs")
HEADS = ("its proof", "its tests' proof", "the proof that edits begin with", "its edits", "what is built and run")
STEPS = 10_000_000


def speed():
    """Seconds of processor time that ten million steps of a loop over integers take in this Python."""
    begin, number = time.process_time(), 1
    for _ in range(STEPS):
        number = (number * 1103515245 + 12345) & 0x7FFFFFFF
    return time.process_time() - begin


def stat_of(process):
    """The parent, when it began, and the processor time of a process and of its children that ended, in seconds; None where it is gone."""
    try:
        with open(f"/proc/{process}/stat") as file:
            fields = file.read().rpartition(")")[2].split()
    except OSError:
        return None
    return int(fields[1]), int(fields[19]), sum(map(int, fields[11:13])) / TICKS, sum(map(int, fields[13:15])) / TICKS


def words_of(process):
    try:
        with open(f"/proc/{process}/cmdline", "rb") as file:
            return [word.decode(errors="replace") for word in file.read().split(b"\0")]
    except OSError:
        return []


def folder_of(process):
    try:
        return os.readlink(f"/proc/{process}/cwd")
    except OSError:
        return ""


def kind_of(words, folder):
    """The crate and the stage of a process of the toolchain, by its words and its folder; None where it is none of them."""
    if not words or os.path.basename(words[0]) not in ("rattle", "rattle-test", "clang", "ld.lld"):
        return None
    if os.path.basename(words[0]) != "rattle" or words[1:2] not in (["build"], ["check"]):
        return os.path.basename(folder), "programs"
    crate = words[words.index("--crate-name") + 1] if "--crate-name" in words else os.path.basename(folder)
    if os.path.basename(folder).startswith("rt-edit-"):
        return crate, "edits"
    return crate, "tests" if "--test" in words else "proof"


def is_gate(words):
    return len(words) > 2 and os.path.basename(words[1]) == "rt" and words[2] == "ci"


class Samples:
    """The newest processor time of each process that was seen, by process and when it began."""

    def __init__(self):
        self.kinds, self.times = {}, {}

    def take(self, top):
        parents = {}
        for name in os.listdir("/proc"):
            if name.isdigit() and (found := stat_of(name)):
                parents[int(name)] = found
        for process, (_, begun, own, _) in parents.items():
            ancestor = process
            while ancestor in parents and ancestor != top:
                ancestor = parents[ancestor][0]
            if ancestor != top:
                continue
            key = process, begun
            # A process that was seen before it became one of the toolchain's is looked at again.
            if not self.kinds.get(key):
                self.kinds[key] = kind_of(words_of(process), folder_of(process))
            if self.kinds[key]:
                self.times[key] = own

    def minutes(self):
        # Edits begin with a check of the crate as it stands.
        firsts = {}
        for key in self.times:
            crate, stage = self.kinds[key]
            if stage == "edits" and (crate not in firsts or key[1] < firsts[crate][1]):
                firsts[crate] = key
        table = collections.defaultdict(lambda: dict.fromkeys(STAGES, 0.0))
        for key, seconds in self.times.items():
            crate, stage = self.kinds[key]
            table[crate]["seed" if firsts.get(crate) == key else stage] += seconds / 60
        return table


def printed(table, whole):
    """The table of minutes, the crate that takes the least last, and the sums."""
    lines = ["| Crate | " + " | ".join(HEADS) + " | in all |", "|---|" + "---|" * (len(HEADS) + 1)]
    sums = dict.fromkeys(STAGES, 0.0)
    for crate, stages in sorted(table.items(), key=lambda it: -sum(it[1].values())):
        for stage in STAGES:
            sums[stage] += stages[stage]
        lines.append(f"| {crate} | " + " | ".join(f"{stages[stage]:.1f}" for stage in STAGES) + f" | {sum(stages.values()):.1f} |")
    lines.append("| **all** | " + " | ".join(f"{sums[stage]:.1f}" for stage in STAGES) + f" | **{sum(sums.values()):.1f}** |")
    if whole:
        lines.append(f"\nBy the system's count of the whole run: {whole / 60:.1f} processor minutes.")
    return "\n".join(lines)


def main():
    words = sys.argv[1:]
    child = subprocess.Popen(words) if words else None
    top = child.pid if child else next((int(it) for it in os.listdir("/proc") if it.isdigit() and is_gate(words_of(it))), None)
    if top is None:
        print("no `rt ci` runs on this machine", file=sys.stderr)
        return 1
    samples, whole, begin = Samples(), 0.0, time.time()
    while (found := stat_of(top)) and (child is None or child.poll() is None):
        samples.take(top)
        whole = found[2] + found[3]
        time.sleep(1)
    print(printed(samples.minutes(), whole))
    print(f"{(time.time() - begin) / 60:.0f} minutes of wall time. Ten million steps of a loop over integers take {speed():.2f} s of this machine.")
    return child.returncode if child else 0


if __name__ == "__main__":
    sys.exit(main())
