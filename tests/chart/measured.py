#!/usr/bin/env python3
"""Runs a command and prints how many whole seconds it took and how many kilobytes of memory it had at most.

Usage: measured.py TEXT OUT COMMAND.., TEXT being its standard input and OUT its standard output.
"""
import resource
import subprocess
import sys
import time

begun = time.monotonic()
with open(sys.argv[1], "rb") as text, open(sys.argv[2], "wb") as out:
    subprocess.run(sys.argv[3:], stdin=text, stdout=out, check=True)
print(int(time.monotonic() - begun), resource.getrusage(resource.RUSAGE_CHILDREN).ru_maxrss)
