#!/usr/bin/env python3
"""Writes the formulas that solvers are measured on: generate.py FOLDER [small]

Each is NAME.cnf, and the names are printed. `small` leaves out those that take a plain solver many seconds.
"""
import os
import random
import sys

HERE = os.path.dirname(os.path.abspath(__file__))
sys.path.insert(0, os.path.join(HERE, "..", "lrat"))

from families import adders, multipliers, pigeonhole, random_clauses, write

# Random clauses of three literals have a model about as often as not where there are so many a variable.
RATIO = 4.26
UNITS = 100_000


def random_formula(variables, seed):
    return random_clauses(variables, round(RATIO * variables), seed)


def chain(length):
    """The first variable is true, each implies the next, and the last is false: units one after another."""
    return [[1], *([-i, i + 1] for i in range(1, length)), [-length]]


def units(length):
    """Every variable is true, and the last is false."""
    return [*([i] for i in range(1, length + 1)), [-length]]


def wide(variables):
    """Three literals a clause, and so few clauses that hardly a decision is wrong."""
    return random_clauses(variables, round(2.6 * variables), 1)


def star(leaves):
    """One variable implies all others by clauses that share its literal."""
    centre = leaves + 1
    return [[-centre, i, i % leaves + 1] for i in range(1, leaves + 1)] + [[centre, 1, 2]]


def one_long(length):
    """A clause of all variables, all but the last of which are false."""
    return [list(range(1, length + 1)), *([-i] for i in range(1, length))]


FAMILIES = {
    "pigeonhole": {f"pigeonhole-{n}": (lambda n=n: pigeonhole(n)) for n in (6, 7, 8, 9)},
    "random": {
        f"random-{n}-{seed}": (lambda n=n, seed=seed: random_formula(n, seed))
        for n in (100, 150, 200, 250)
        for seed in (1, 2)
    },
    "adders": {f"adders-{n}": (lambda n=n: adders(n)) for n in (32, 64, 128)},
    "multipliers": {f"multipliers-{n}": (lambda n=n: multipliers(n)) for n in (6, 7, 8)},
    "units": {"chain": lambda: chain(UNITS), "chain-backwards": lambda: chain(UNITS)[::-1], "units": lambda: units(UNITS)},
    "large": {"star": lambda: star(2 * UNITS), "one-long": lambda: one_long(10 * UNITS), "million": lambda: wide(10 * UNITS)},
}

SLOW = {"pigeonhole-9", "random-250-1", "random-250-2", "multipliers-8", "million"}


def main():
    folder, small = sys.argv[1], sys.argv[2:] == ["small"]
    for family, formulas in FAMILIES.items():
        for name, formula in formulas.items():
            if not (small and name in SLOW):
                write(formula(), os.path.join(folder, f"{name}.cnf"))
                print(f"{family}/{name}")


if __name__ == "__main__":
    main()
