#!/usr/bin/env python3
"""Writes the demo package insert: rows right after the header, then the names in row order."""
import struct
import sys

# name, table number, target, lower end, upper end (hundredths of the unit), last minute of use
ASSAYS = [
    ("K", 35, 400, 350, 450, 100_000),
    ("NA", 43, 14_000, 13_600, 14_400, 100_000),
    ("CL", 13, 7_000, 6_900, 7_200, 100_000),
    ("GLU", 25, 9_500, 8_000, 11_000, 90_000),
    ("HB", 27, 1_380, 1_300, 1_460, 90_000),
    ("DIGOXIN", 19, 101, 50, 200, 60_000),
    ("CRP", 0, 500, 380, 620, 60_000),
]

rows, names = b"", b""
for name, table, target, lower, upper, last in ASSAYS:
    rows += struct.pack(">HIIIIBH", table, target, lower, upper, last, len(name), len(names))
    names += name.encode()
length = 10 + len(rows) + len(names)
header = struct.pack(">HHHHH", length, len(ASSAYS), 10, len(names), 10 + len(rows))
with open(sys.argv[1], "wb") as f:
    f.write(header + rows + names)
