"""Drains the loop that listens at a file name, where no application is attached to it: drain.py APPLICATION. It waits until all are released and the loop ends.

Where an application is attached it is the one to drain: this is closed at once, and tries again until that one is gone. Where nobody listens nothing is left to do.
"""
import socket
import sys
import time

while True:
    with socket.socket(socket.AF_UNIX) as line:
        try:
            line.connect(sys.argv[1])
        except OSError:
            break
        try:
            line.sendall(b"drain\n")
            while line.recv(65536):
                pass
        except OSError:
            pass
    time.sleep(0.2)
