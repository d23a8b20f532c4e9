#!/usr/bin/env python3
"""Writes a formula and a proof that refutes it: generate.py LINES FORMULA PROOF

The formula says that variable i implies variable i + 1, that the first is true and that the last is
false. Each line of the proof adds a lemma "variable i implies variable j", by the clauses between
them; every third deletes a lemma; the last line adds the empty clause.
"""
import random
import sys

VARIABLES = 20_000
LENGTH = 28


def main():
    lines = int(sys.argv[1])
    numbers = random.Random(1)
    count = VARIABLES + 1
    with open(sys.argv[2], "w") as formula:
        formula.write(f"p cnf {VARIABLES} {count}\n")
        for variable in range(1, VARIABLES):
            formula.write(f"-{variable} {variable + 1} 0\n")
        formula.write(f"1 0\n-{VARIABLES} 0\n")
    ident = count
    with open(sys.argv[3], "w") as proof:
        for line in range(lines):
            if line % 3 == 2:
                proof.write(f"{ident} d {ident} 0\n")
                continue
            ident += 1
            first = numbers.randrange(1, VARIABLES - 2 * LENGTH)
            last = first + numbers.randrange(LENGTH, 2 * LENGTH)
            hints = " ".join(str(clause) for clause in range(first, last))
            proof.write(f"{ident} -{first} {last} 0 {hints} 0\n")
        hints = " ".join(str(clause) for clause in [VARIABLES, *range(1, VARIABLES), count])
        proof.write(f"{ident + 1} 0 {hints} 0\n")


main()
