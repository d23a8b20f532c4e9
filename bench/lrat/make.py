#!/usr/bin/env python3
"""Writes the formulas and proofs that the checkers are measured on: make.py FOLDER LINES

Each is NAME.cnf and NAME.lrat, and the names are printed. LINES is for the two that generate.py and
definitions.py write. Where `cadical` is missing, those of a solver are left out.
"""
import os
import shutil
import subprocess
import sys

from families import FAMILIES, pigeonhole, write
from pigeons import by_definitions, by_sets

HERE = os.path.dirname(os.path.abspath(__file__))
LRAT_OF_DRAT = os.path.join(HERE, "..", "..", "tools", "lrat_of_drat.py")


def solved(folder, name, clauses):
    """Has the solver refute a formula, and names its proof with deletions and that without."""
    path = os.path.join(folder, name)
    write(clauses, f"{path}.cnf")
    subprocess.run(["cadical", "-q", "--no-binary", f"{path}.cnf", f"{path}.drat"], stdout=subprocess.DEVNULL)
    subprocess.run([sys.executable, LRAT_OF_DRAT, f"{path}.cnf", f"{path}.drat", f"{path}.lrat"], check=True)
    os.remove(f"{path}.drat")
    shutil.copy(f"{path}.cnf", f"{path}-kept.cnf")
    with open(f"{path}.lrat") as proof, open(f"{path}-kept.lrat", "w") as kept:
        kept.writelines(line for line in proof if line.split()[1] != "d")
    return [name, f"{name}-kept"]


def ruled(folder, name, holes, proof, deletions):
    """A pigeonhole formula with a proof that is written by rule."""
    path = os.path.join(folder, name)
    write(pigeonhole(holes), f"{path}.cnf")
    with open(f"{path}.lrat", "w") as out:
        out.writelines(line + "\n" for line in proof(holes, deletions))
    return [name]


def generated(folder, name, script, lines):
    path = os.path.join(folder, name)
    subprocess.run([sys.executable, os.path.join(HERE, script), lines, f"{path}.cnf", f"{path}.lrat"], check=True)
    return [name]


def main():
    folder, lines = sys.argv[1:]
    names = generated(folder, "chain", "generate.py", lines)
    names += generated(folder, "definitions", "definitions.py", "100000")
    for holes in (7, 8, 9, 10, 12):
        names += ruled(folder, f"pigeonhole-{holes}", holes, by_sets, True)
        names += ruled(folder, f"pigeonhole-{holes}-kept", holes, by_sets, False)
    names += ruled(folder, "pigeonhole-25-defined", 25, by_definitions, True)
    if shutil.which("cadical"):
        for name, formula in FAMILIES.items():
            names += solved(folder, name, formula())
    print("\n".join(names))


main()
