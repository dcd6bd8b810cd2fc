"""One test for each case and role of the device: passed, failed with what the device did, or skipped as inconclusive."""
import os
import subprocess
import sys

import judging
import pytest
from bench import TOP, Inconclusive

# What is kept of a case that failed, beside what the relay printed: the tool, its words, and the file.
KEPT = (("tap", (), "line.tap"), ("pcap", (), "line.pcapng"), ("chart", ("--html",), "chart.html"))


def keep(run, bench):
    """Leaves the tap, the capture and the chart of what the relay printed in the folder of the run."""
    for tool, words, name in KEPT:
        numbers = ("--engine", str(bench.device.engine), "--rbc", str(bench.device.rbc)) if tool == "tap" else ()
        made = subprocess.run([sys.executable, os.path.join(TOP, "tools", tool), *numbers, *words, run.path("relay.printed")], capture_output=True, check=False)
        with open(run.path(name), "wb") as file:
            file.write(made.stdout)


def judged(run, bench):
    """What of the wanted isn't so."""
    look = judging.Look(run, bench)
    return [why for check in run.case.wanted[run.role] if (why := check(look))]


def test_device(played, bench, record_property):
    run = played
    record_property("rule", f"docs/FORMATS.md, {run.case.rule[0]}: {run.case.rule[1]}")
    record_property("folder", run.folder)
    try:
        if run.inconclusive:
            raise Inconclusive(run.inconclusive)
        faults = judged(run, bench)
    except Inconclusive as why:
        pytest.skip(f"inconclusive: {why}")
    if faults:
        keep(run, bench)
        pytest.fail("; ".join(faults), pytrace=False)
