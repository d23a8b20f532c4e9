"""Compares the outputs of two simulations: compare.py NAME TICKS ONE OTHER.

A line is a tick, with the outputs' words in hexadecimal, by name and in any order. Prints that they
agree, or the first line that differs with status 1.
"""
import sys


def words(line):
    """The words of a line by name. One with an unknown bit (x or z) stays text, which no number equals."""
    pairs = (entry.split("=", 1) for entry in line.split())
    return {name: digits if set(digits) & set("xzXZ") else int(digits, 16) for name, digits in pairs}


def difference(ticks, one, other):
    """What differs first, or None."""
    with open(one) as file:
        first = file.read().splitlines()
    with open(other) as file:
        second = file.read().splitlines()
    if (len(first), len(second)) != (ticks, ticks):
        return f"{len(first)} and {len(second)} lines in place of {ticks}"
    for tick, (left, right) in enumerate(zip(first, second)):
        if words(left) != words(right):
            return f"tick {tick} differs\n  {one}: {left}\n  {other}: {right}"
    return None


def main(name, ticks, one, other):
    found = difference(int(ticks), one, other)
    print(f"{name}: {found or ticks + ' ticks agree'}")
    return 1 if found else 0


sys.exit(main(*sys.argv[1:]))
