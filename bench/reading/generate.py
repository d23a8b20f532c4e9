"""Writes a circuit in BTOR2 of a million lines and at most 64 MiB: generate.py KIND.

operators  operators on random earlier lines, with symbols that fill 64 MiB
states     states with a name each, an `init` that reads an earlier state, and a `next`
writes     one ROM of 4,096 words, whose `init` is a chain of as many writes as fit
shared     32,766 cells of two words, which begin with different nodes of one chain of 900,000 writes
ports      as many named inputs as outputs
faulty     `operators` whose last line names a line that isn't there
"""
import random
import sys

LINES = 1_000_000
BYTES = 64 * 1024 * 1024
DRAW = random.Random(1)


def operators(last="or 1 3 3"):
    yield "sort bitvec 32"
    yield "input 1 a"
    yield "state 1 s"
    filled = 16 + sum(len(str(number)) + 1 for number in range(1, LINES + 1))
    room = (BYTES - filled) // LINES - 26
    for number in range(4, LINES - 1):
        left, right = DRAW.randrange(2, number), DRAW.randrange(2, number)
        symbol = f"s{number}".ljust(room, "_")
        yield f"{DRAW.choice(['add', 'xor', 'mul', 'and'])} 1 {left} -{right} {symbol}"
    yield f"next 1 3 {LINES - 2}"
    yield last


def states():
    yield "sort bitvec 8"
    yield "zero 1"
    states = []
    for number in range(3, LINES - 2, 3):
        yield f"state 1 cell_{number}"
        yield f"init 1 {number} {DRAW.choice(states[-1000:]) if states else 2}"
        yield f"next 1 {number} {number}"
        states.append(number)


def writes():
    yield "sort bitvec 12"
    yield "sort array 1 1"
    yield "state 2"
    last = 3
    for number in range(4, LINES - 4, 2):
        yield f"constd 1 {DRAW.randrange(4096)}"
        yield f"write 2 {last} {number} {number}"
        last = number + 1
    yield "state 2 rom"
    yield f"init 2 {last + 1} {last}"
    yield f"next 2 {last + 1} {last + 1}"


def shared():
    cells, chain = 32_766, 900_000
    yield "sort bitvec 1"
    yield "sort array 1 1"
    yield "zero 1"
    yield "one 1"
    yield "state 2"
    for number in range(6, 6 + chain):
        yield f"write 2 {number - 1} 3 {DRAW.choice([3, 4])}"
    for cell in range(cells):
        state = 6 + chain + 3 * cell
        yield f"state 2 cell_{cell}"
        yield f"init 2 {state} {DRAW.randrange(6, 6 + chain)}"
        yield f"next 2 {state} {state}"


def ports():
    yield "sort bitvec 1"
    for number in range(2, LINES - 1, 2):
        yield f"input 1 in_{number}"
        yield f"output {number} out_{number}"


KINDS = {
    "operators": operators,
    "states": states,
    "writes": writes,
    "shared": shared,
    "ports": ports,
    "faulty": lambda: operators(f"or 1 3 {LINES + 1}"),
}

for place, words in enumerate(KINDS[sys.argv[1]](), 1):
    print(place, words)
