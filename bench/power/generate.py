"""Writes a circuit in BTOR2 for the time of a power-cycle: generate.py KIND STATES.

usual   each state's `init` is an operator on the state before it, and stands before the next state
dear    the same states, but all operators stand behind all states, so that each `init` is read behind
        every later state: made to be dear, no design is like it
"""
import sys


def usual(states):
    yield "sort bitvec 32"
    yield "one 1"
    before = 2
    for number in range(3, 3 + 4 * states, 4):
        yield f"inc 1 {before}"
        yield f"state 1"
        yield f"init 1 {number + 1} {number}"
        yield f"next 1 {number + 1} {number + 1}"
        before = number + 1


def dear(states):
    yield "sort bitvec 32"
    yield "one 1"
    for _ in range(states):
        yield "state 1"
    for place in range(states):
        yield f"inc 1 {2 + place}"
    for place in range(states):
        yield f"init 1 {3 + place} {3 + states + place}"
        yield f"next 1 {3 + place} {3 + place}"


KINDS = {"usual": usual, "dear": dear}

for place, words in enumerate(KINDS[sys.argv[1]](int(sys.argv[2])), 1):
    print(place, words)
