"""The laboratory's cases: laboratory.py PROGRAM [--designs], for laboratory.sh beside it."""
import contextlib
import os
import re
import shutil
import subprocess
import sys
import tempfile
from xml.etree import ElementTree

sys.dont_write_bytecode = True
TOP = os.path.dirname(os.path.dirname(os.path.abspath(__file__)))
LABORATORY = os.path.join(TOP, "examples", "laboratory")
sys.path[:0] = [os.path.join(TOP, "tests", "lab"), LABORATORY]

import relay_model  # noqa: E402
from judge import Judge  # noqa: E402
from serving import KEYS, free_port, is_listened_at  # noqa: E402

LEAST_CASES, AT_ONCE = 25, "8"
PASSED, FAILED, INCONCLUSIVE = "passed", "failed", "inconclusive"
# Wrong programs of tests/designs/, and the cases that fail against each, and no others.
DESIGNS = {
    "no-confirm-of-a-bare-disconnect-request": {"dr-without-di-centre", "dr-without-di-train"},
    "no-disconnect-request-for-a-long-message": {"message-too-long-centre", "message-too-long-train"},
    "long-messages-are-not-heard-by-the-user": {"every-octet-and-length-centre"},
}
# What each failed case leaves in its folder, and how it begins.
KEPT = {"line.tap": b"tap 1\n", "line.pcapng": b"\x0a\x0d\x0d\x0a", "chart.html": b"<!DOCTYPE html>"}


def pytest_command():
    """How pytest is called, or None."""
    for words in ([sys.executable, "-m", "pytest"], ["pytest-3"], ["pytest"], ["/usr/bin/python3", "-m", "pytest"]):
        with contextlib.suppress(OSError):
            if subprocess.run([*words, "--version"], capture_output=True, check=False).returncode == 0:
                return words
    return None


class Laboratory:
    """Runs the cases against a device that is a program of this repository."""

    def __init__(self, pytest, program, work):
        self.pytest, self.program, self.work = pytest, program, work
        self.keys = os.path.join(work, "keys")
        with open(self.keys, "w") as file:
            file.write(KEYS)

    def run(self, name, words, only=None, at_once=AT_ONCE):
        """(the verdict of each case, what was said of it, its folder) by its name, as the JUnit report has them."""
        report, folder = (os.path.join(self.work, f"{name}{end}") for end in (".xml", ""))
        chosen = [f"test_device.py::test_device[{case}]" for case in sorted(only)] if only else ["."]
        told = {"junitxml": report, "program": self.program, "keys": self.keys, "folder": folder, "at-once": at_once, **words}
        run = subprocess.run([*self.pytest, *chosen, "-q", *(f"--{name}={value}" for name, value in told.items())], cwd=LABORATORY, capture_output=True, text=True, check=False,
                             env={**os.environ, "PYTHONDONTWRITEBYTECODE": "1"})
        if not os.path.exists(report):
            print(run.stdout[-2000:] + run.stderr[-2000:])
            return {}
        return dict(map(verdict_of, ElementTree.parse(report).iter("testcase")))

    @contextlib.contextmanager
    def serving(self, device, keys=None):
        """A device that answers as a centre: the words by which it is told."""
        port = free_port()
        with open(os.path.join(self.work, "serve.recording"), "ab") as out:
            serve = subprocess.Popen([device, "serve", keys or self.keys, f"127.0.0.1:{port}", "9", "-"], stdin=subprocess.DEVNULL, stdout=out, stderr=subprocess.DEVNULL)
        try:
            is_listened_at(port)
            yield {"device": f"127.0.0.1:{port}"}
        finally:
            serve.terminate()
            serve.wait()

    def of_program(self, name, device):
        """The verdicts of all cases against a program in both roles. One that fails is tried once more by itself, since times are those of a busy machine."""
        with self.serving(device) as served:
            words = {**served, "trigger": f"{device} call {self.keys} {{address}} 5 9 -"}
            found = self.run(name, words)
            doubtful = {case for case, (verdict, _, _) in found.items() if verdict != PASSED}
            return {**found, **(self.run(f"{name}-again", words, doubtful, "2") if doubtful and len(doubtful) < len(found) / 2 else {})}


def verdict_of(case):
    """(name, (verdict, what was said, folder)) of a test of a JUnit report."""
    name = re.search(r"\[(.*)\]", case.get("name"))[1]
    folder = next((it.get("value") for it in case.iter("property") if it.get("name") == "folder"), "")
    for kind, verdict in (("failure", FAILED), ("error", FAILED), ("skipped", INCONCLUSIVE)):
        told = case.find(kind)
        if told is not None:
            return name, (verdict, told.get("message") or told.text or "", folder)
    return name, (PASSED, "", folder)


def table(judge):
    """Each case names a rule that stands in its section of docs/FORMATS.md, and a script that can be read."""
    import cases
    with open(os.path.join(TOP, "docs/FORMATS.md"), encoding="utf-8") as file:
        texts = dict(part.split("\n", 1) for part in re.split(r"^## ", file.read(), flags=re.M)[1:])
    plain = {name: " ".join(text.split()) for name, text in texts.items()}
    judge.none("rules that docs/FORMATS.md has not", [each.name for each in cases.CASES if each.rule[1] not in plain.get(each.rule[0], "")])
    judge.same("the names are different", len(cases.BY_NAME), len(cases.CASES))
    judge.same("the count of cases", len(cases.CASES) >= LEAST_CASES, True)
    for each in cases.CASES:
        judge.same(f"the script of {each.name}", [str(relay_model.read_line(line)).split() for line in each.script], [line.split() for line in each.script])


def against_own(judge, laboratory):
    """All cases pass against this repository's own `serve` and `call`."""
    import cases
    found = laboratory.of_program("own", laboratory.program)
    judge.same("each case was played in each of its roles", len(found), sum(len(each.wanted) for each in cases.CASES))
    for case, (verdict, said, _) in sorted(found.items()):
        judge.same(f"{case}: {said}", verdict, PASSED)


def against_others(judge, laboratory):
    """A device with another key fails the set-up, and leaves what is looked at; one that isn't there, or that never calls, is inconclusive."""
    other = os.path.join(laboratory.work, "other-keys")
    with open(other, "w") as file:
        file.write(KEYS.replace("0123456789abcdef23456789abcdef01", "0123456789abcdef23456789abcdef03"))
    with laboratory.serving(laboratory.program, other) as served:
        verdict, said, folder = laboratory.run("other-key", served, {"set-up-centre"}).get("set-up-centre", ("", "", ""))
    judge.same(f"a device with another key: {said}", verdict, FAILED)
    for name, begin in KEPT.items():
        with contextlib.suppress(OSError), open(os.path.join(folder, name), "rb") as file:
            judge.same(f"what it leaves, {name}", file.read(len(begin)), begin)
            continue
        judge.same(f"what it leaves, {name}", "nothing", "a file")
    nobody = laboratory.run("nobody", {"device": f"127.0.0.1:{free_port()}"}, {"set-up-centre"})
    silent = laboratory.run("silent", {"trigger": "true", "t1": 100}, {"other-safety-feature-train"})
    for name, found in (("a device that isn't there", nobody), ("a device that never calls", silent)):
        judge.same(f"{name}: {found}", [verdict for verdict, _, _ in found.values()], [INCONCLUSIVE])


def against_designs(judge, laboratory):
    """Wrong programs fail at the cases that should, and at no others."""
    import designs
    import quick
    for name, wanted in DESIGNS.items():
        design = designs.Design(name, laboratory.work)
        os.makedirs(design.work)
        refusal = design.write_copy()
        compiled = quick.Quick(design.work, design.copy)
        compiled.tell = lambda what, holds, said, more="", name=name: None if holds else print(f"{name}: {what}: {said}\n{more}")
        program = None if refusal else compiled.unproved("-O1")
        judge.same(f"{name} applies and compiles: {refusal}", program is not None, True)
        if program:
            found = laboratory.of_program(f"cases-{name}", program)
            judge.same(name, {case for case, (verdict, _, _) in found.items() if verdict != PASSED}, wanted)
        shutil.rmtree(design.work, ignore_errors=True)


def main():
    pytest = pytest_command()
    if pytest is None:
        print("laboratory.sh: skipped, since pytest isn't installed (Debian: apt-get install python3-pytest)")
        return 0
    judge = Judge()
    with tempfile.TemporaryDirectory(prefix="laboratory-") as work:
        laboratory = Laboratory(pytest, os.path.abspath(sys.argv[1]), work)
        table(judge)
        if "--designs" in sys.argv[2:]:
            against_designs(judge, laboratory)
        else:
            against_own(judge, laboratory)
            against_others(judge, laboratory)
    return judge.close()


if __name__ == "__main__":
    sys.exit(main())
