#!/usr/bin/env python3
"""Runs both checkers on proofs in a folder, five times in turn each: measure.py FOLDER KNOX NAME..

Prints a row for each proof: processor time and memory, the median of each, and how many times that of the
checker in C; and the geometric mean of the times. A proof that a checker refuses ends it.
"""
import math
import os
import statistics
import subprocess
import sys

RUNS = 5


def measured(words):
    """The processor seconds and MB of one run, which must accept the proof."""
    process = subprocess.Popen(words, stdout=subprocess.PIPE)
    said = process.stdout.read()
    _, status, used = os.wait4(process.pid, 0)
    process.returncode = os.waitstatus_to_exitcode(status)
    if process.returncode or said.strip() != b"verified":
        sys.exit(f"{words} ended with {process.returncode} and said {said!r}")
    return used.ru_utime + used.ru_stime, used.ru_maxrss / 1000


def medians(runs):
    return [statistics.median(column) for column in zip(*runs)]


def main():
    folder, knox, *names = sys.argv[1:]
    print("| Proof | MB | C, seconds | `knox check` | times | C, MB | `knox check` |")
    print("|---|---|---|---|---|---|---|")
    ratios = []
    for name in names:
        texts = [f"{folder}/{name}.cnf", f"{folder}/{name}.lrat"]
        plain, proved = [], []
        for _ in range(RUNS):
            plain.append(measured([f"{folder}/check", *texts]))
            proved.append(measured([knox, "check", *texts]))
        (seconds, room), (longer, more) = medians(plain), medians(proved)
        ratios.append(longer / seconds)
        size = os.path.getsize(texts[1]) / 1e6
        print(f"| {name} | {size:.1f} | {seconds:.3f} | {longer:.3f} | {ratios[-1]:.1f} | {room:.0f} | {more:.0f} |", flush=True)
    mean = math.exp(statistics.fmean(map(math.log, ratios)))
    print(f"geometric mean {mean:.2f}, greatest {max(ratios):.2f}")


if __name__ == "__main__":
    main()
