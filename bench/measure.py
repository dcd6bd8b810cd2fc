#!/usr/bin/env python3
"""Runs a program and prints its seconds of processor time, the most MiB that it took, and its status: measure.py PROGRAM WORD..

What the program prints is dropped. The program is run by GNU time, where that is installed: what a child of Python's took counts what Python took
before it became the program, some 14 MiB. Used by the scripts beside it.
"""
import os
import resource
import shutil
import subprocess
import sys
import tempfile

timer = shutil.which("time", path="/usr/bin:/bin:/usr/local/bin")
with open(os.devnull, "wb") as nothing, tempfile.NamedTemporaryFile("r") as told:
    words = [timer, "-q", "-f", "%M", "-o", told.name] if timer else []
    status = subprocess.run([*words, *sys.argv[1:]], stdout=nothing).returncode
    used = resource.getrusage(resource.RUSAGE_CHILDREN)
    most = int(told.read().split()[-1]) if timer else used.ru_maxrss
print(f"{used.ru_utime + used.ru_stime:.2f} {most / 1024:.1f} {status}")
