#!/usr/bin/env python3
"""Prints a drill of level full in which the engine sends COUNT messages, each accepted and taken before the next: four frames each.

Usage: many-frames.py COUNT
"""
import sys

KEY = "0123456789abcdef23456789abcdef01456789abcdef0123"

print("drill 1 full\nset show 1")
print(f"link 1 5 9 {KEY} {KEY} 1122334455667788 0102030405060708\ndrain 1 64")
for place in range(int(sys.argv[1])):
    print(f"send 1 e {place:08x}\ndrain 1 1000\ntake 1 r\ndrain 1 1000\ntick {1000 * (place + 1)}")
