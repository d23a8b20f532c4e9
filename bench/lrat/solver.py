#!/usr/bin/env python3
"""Has cadical refute ten formulas, and checks its proofs: solver.py FOLDER KNOX

Each proof must be accepted, and refused where one hint of it is spoilt: it names a clause that isn't there.
"""
import os
import subprocess
import sys

from families import SMALL, write

HERE = os.path.dirname(os.path.abspath(__file__))
LRAT_OF_DRAT = os.path.join(HERE, "..", "..", "tools", "lrat_of_drat.py")
INPROCESSING = ["--block=1", "--condition=1", "--cover=1", "--inprocessing=1"]


def answer(knox, formula, proof):
    return subprocess.run([knox, "check", formula, proof], stdout=subprocess.PIPE, text=True).stdout.strip()


def spoilt(lines):
    """The lines, where the last hint of a lemma in the middle is the lemma's own id."""
    for place in range(len(lines) // 2, len(lines)):
        words = lines[place].split()
        if words[1] != "d" and words[-2] != "0":
            return [*lines[:place], " ".join([*words[:-2], words[0], "0"]) + "\n", *lines[place + 1:]]
    raise ValueError("no lemma has a hint")


def main():
    folder, knox = sys.argv[1:]
    for name, formula in SMALL.items():
        path = os.path.join(folder, name)
        write(formula(), f"{path}.cnf")
        subprocess.run(["cadical", "-q", "--no-binary", *INPROCESSING, f"{path}.cnf", f"{path}.drat"], stdout=subprocess.DEVNULL)
        subprocess.run([sys.executable, LRAT_OF_DRAT, f"{path}.cnf", f"{path}.drat", f"{path}.lrat"], check=True)
        with open(f"{path}.lrat") as proof:
            lines = proof.readlines()
        with open(f"{path}-spoilt.lrat", "w") as out:
            out.writelines(spoilt(lines))
        good = answer(knox, f"{path}.cnf", f"{path}.lrat")
        bad = answer(knox, f"{path}.cnf", f"{path}-spoilt.lrat")
        print(f"{name}: {len(lines)} lines, {good}; spoilt, {bad}")
        if good != "verified" or not bad.startswith("rejected"):
            sys.exit(1)


main()
