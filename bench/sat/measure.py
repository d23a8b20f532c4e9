#!/usr/bin/env python3
"""Runs solvers on formulas in a folder, five times in turn each: measure.py FOLDER PROGRAM KNOX FAMILY/NAME..

PROGRAM is what solves a formula that is its last word (`knox sat`, say), and KNOX checks proofs; it may be
empty. FOLDER has the plain solver and the plain checker in C. Models are tried, and proofs checked by both
checkers. Prints a row for each formula: user time, the least of each, and how many times that of the solver
in C, with that of each other solver that is installed; the same for each family and in all; and memory. The
status is 1 where a family takes more than 2.5 times as long, all of them more than twice, or a formula more
than four times the memory.
"""
import os
import shutil
import subprocess
import sys

RUNS = 5
# A run that takes so many seconds is repeated less often.
LONG = 10
# Another solver that takes more is stopped.
PATIENCE = 100
# Below so many MB the greatest memory of a process is that of the interpreter that starts it.
LEAST_MEMORY = 20
OTHERS = {"minisat": ["minisat", "-verb=0"], "picosat": ["picosat", "-n"], "cadical": ["cadical", "-q", "-n"]}

# Formulas without clauses, with the empty one, with doubled literals and with complementary ones.
CORNERS = {
    "p cnf 0 0\n": "sat",
    "p cnf 5 0\n": "sat",
    "p cnf 0 1\n0\n": "c unsat",
    "p cnf 3 3\n1 0\n0\n2 0\n": "c unsat",
    "p cnf 1 2\n1 1 0\n-1 -1 0\n": "c unsat",
    "p cnf 2 4\n1 1 2 0\n1 -2 1 0\n-1 2 -1 0\n-1 -2 -2 0\n": "c unsat",
    "p cnf 3 5\n1 1 0\n-1 -1 2 0\n2 -2 0\n-2 3 3 -3 0\n3 -3 0\n": "sat",
}


def run(words, out):
    """The user seconds, the MB and the status of one run, which writes to a file."""
    with open(out, "w") as file:
        process = subprocess.Popen(words, stdout=file, stderr=subprocess.DEVNULL)
        _, status, used = os.wait4(process.pid, 0)
    process.returncode = os.waitstatus_to_exitcode(status)
    return used.ru_utime, used.ru_maxrss / 1000, process.returncode


def clauses_of(path):
    with open(path) as text:
        numbers = [int(word) for line in text if not line.startswith(("c", "p")) for word in line.split()]
    clause = []
    for number in numbers:
        if number:
            clause.append(number)
        else:
            yield clause
            clause = []


def is_model(path, literals):
    true = set(literals)
    return not any(-literal in true for literal in true) and all(any(l in true for l in c) for c in clauses_of(path))


def check(formula, out, checkers):
    """Ends the script unless an answer's model satisfies the formula, or its proof refutes it."""
    with open(out) as text:
        answer, *lines = text.read().splitlines()
    if answer == "sat" and is_model(formula, [int(word) for word in lines[0].split()[1:-1]]):
        return answer
    if answer == "c unsat":
        proof = f"{out}.lrat"
        with open(proof, "w") as text:
            text.writelines(line + "\n" for line in lines)
        said = [subprocess.run([*checker, formula, proof], stdout=subprocess.PIPE).stdout.strip() for checker in checkers]
        if said == [b"verified"] * len(checkers):
            return answer
    sys.exit(f"{formula}: the answer in {out} is wrong")


def least(runs):
    return min(runs, key=lambda one: one[0])


def measured(formula, folder, program, checkers):
    """The answer, and the least runs of the solver in C and of the program."""
    solvers = {f"{folder}/plain.out": [f"{folder}/solver", formula], f"{folder}/proved.out": [*program, formula]}
    runs = {out: [] for out in solvers}
    for turn in range(RUNS):
        for out, words in solvers.items():
            if turn < 2 or runs[out][0][0] < LONG:
                runs[out].append(run(words, out))
    answers = [check(formula, out, checkers) for out in solvers]
    if answers[0] != answers[1]:
        sys.exit(f"{formula}: {answers}")
    return answers[0], *(least(runs[out]) for out in solvers)


def other_time(words, formula, out):
    """The user seconds of another solver, or that it took too many."""
    seconds, _, status = run(["timeout", str(PATIENCE), *words, formula], out)
    return f"over {PATIENCE}" if status == 124 else f"{seconds:.2f}"


def corners(folder, program, checkers):
    path, out = f"{folder}/corner.cnf", f"{folder}/corner.out"
    for text, wanted in CORNERS.items():
        with open(path, "w") as file:
            file.write(text)
        run([*program, path], out)
        if check(path, out, checkers) != wanted:
            sys.exit(f"{text!r} is answered otherwise")
    print(f"{len(CORNERS)} small formulas are answered as they should be\n")


def ratio(longer, shorter):
    """Times too short to be measured count as a hundredth of a second."""
    return max(longer, 0.01) / max(shorter, 0.01)


def main():
    folder, program, knox, *names = sys.argv[1:]
    program = program.split()
    checkers = [[f"{folder}/check"], *([[knox, "check"]] if knox else [])]
    others = [words for name, words in OTHERS.items() if shutil.which(name)]
    corners(folder, program, checkers)
    print("| Formula | Answer | C, s | proved, s | times | C, MB | proved, MB |", *(f"{o[0]}, s |" for o in others))
    print("|---|---|---|---|---|---|---|" + "---|" * len(others))
    families, fault = {}, False
    for family, name in (entry.split("/") for entry in names):
        formula = f"{folder}/{name}.cnf"
        answer, plain, proved = measured(formula, folder, program, checkers)
        times = [other_time(words, formula, f"{folder}/other.out") for words in others]
        row = [name, answer, f"{plain[0]:.2f}", f"{proved[0]:.2f}", f"{ratio(proved[0], plain[0]):.2f}", f"{plain[1]:.0f}", f"{proved[1]:.0f}"]
        print("|", " | ".join([*row, *times]), "|", flush=True)
        families.setdefault(family, []).append((plain[0], proved[0]))
        fault |= proved[1] > 4 * max(plain[1], LEAST_MEMORY)
    total = [0, 0]
    for family, runs in families.items():
        plain, proved = (sum(column) for column in zip(*runs))
        print(f"{family}: {plain:.2f} s, {proved:.2f} s, {ratio(proved, plain):.2f} times")
        fault |= ratio(proved, plain) > 2.5
        total = [total[0] + plain, total[1] + proved]
    print(f"in all: {total[0]:.2f} s, {total[1]:.2f} s, {ratio(total[1], total[0]):.2f} times")
    sys.exit(int(fault or ratio(total[1], total[0]) > 2))


if __name__ == "__main__":
    main()
