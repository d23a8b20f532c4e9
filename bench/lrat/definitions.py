#!/usr/bin/env python3
"""Writes a formula and a proof of RAT lines that refutes it: definitions.py LINES FORMULA PROOF

The formula says that variable i implies variable i + 1, that the first is true and that the last is false.
The proof defines new variables, each as the disjunction of five others: a line for each of these without
groups, and one with a group for each. The last line adds the empty clause.
"""
import random
import sys

VARIABLES = 2_000
PARTS = 5


def main():
    numbers = random.Random(1)
    count = VARIABLES + 1
    with open(sys.argv[2], "w") as formula:
        formula.write(f"p cnf {VARIABLES} {count}\n")
        for variable in range(1, VARIABLES):
            formula.write(f"-{variable} {variable + 1} 0\n")
        formula.write(f"1 0\n-{VARIABLES} 0\n")
    ident = count
    with open(sys.argv[3], "w") as proof:
        for new in range(VARIABLES + 1, VARIABLES + 1 + int(sys.argv[1]) // (PARTS + 1)):
            parts = numbers.sample(range(1, new), PARTS)
            for at, part in enumerate(parts, 1):
                proof.write(f"{ident + at} {new} -{part} 0 0\n")
            groups = " ".join(str(-ident - at) for at in range(1, PARTS + 1))
            ident += PARTS + 1
            proof.write(f"{ident} -{new} {' '.join(map(str, parts))} 0 {groups} 0\n")
        hints = " ".join(str(clause) for clause in [VARIABLES, *range(1, VARIABLES), count])
        proof.write(f"{ident + 1} 0 {hints} 0\n")


main()
