"""Puts standard input between the two marker lines of docs/MEASUREMENTS.md that have this name: put.py NAME."""

import sys

PATH = "docs/MEASUREMENTS.md"
begin, end = f"<!-- {sys.argv[1]}: from here -->\n", f"<!-- {sys.argv[1]}: to here -->\n"
before, rest = open(PATH).read().split(begin)
after = rest.split(end)[1]
with open(PATH, "w") as file:
    file.write(before + begin + sys.stdin.read() + end + after)
