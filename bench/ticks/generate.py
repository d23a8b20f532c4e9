"""Writes a circuit in BTOR2 for the speed of ticks: generate.py LINES WORDS.

It has about LINES lines of logic on words of 32 bits, with 16 registers, and a ROM of WORDS words (a
power of two), made by a chain of writes as Yosys does. The ROM is read once a tick.
"""
import random
import sys

OPERATORS = ["add", "sub", "xor", "and", "or", "mul", "sll", "srl", "add", "xor"]
REGISTERS = 16


class Text:
    """The lines so far, each with its number."""

    def __init__(self):
        self.lines = []

    def line(self, words):
        self.lines.append(f"{len(self.lines) + 1} {words}")
        return len(self.lines)


def rom(text, draw, word, index, bits):
    """A ROM of 2 ^ bits words, whose index has as many."""
    array = text.line(f"sort array {index} {word}")
    value = text.line(f"state {array}")
    for place in range(1 << bits):
        at = text.line(f"constd {index} {place}")
        kept = text.line(f"constd {word} {draw.getrandbits(32)}")
        value = text.line(f"write {array} {value} {at} {kept}")
    state = text.line(f"state {array} rom")
    text.line(f"init {array} {state} {value}")
    text.line(f"next {array} {state} {state}")
    return state


def circuit(lines, words):
    """Registers whose next words come from random operators over registers, the ROM's word and earlier values."""
    draw, text = random.Random(1), Text()
    bits = words.bit_length() - 1
    bit, word = text.line("sort bitvec 1"), text.line("sort bitvec 32")
    index = text.line(f"sort bitvec {bits}")
    kept = rom(text, draw, word, index, bits)
    first = len(text.lines)
    values = []
    for register in range(REGISTERS):
        value = text.line(f"constd {word} {draw.getrandbits(32)}")
        state = text.line(f"state {word} r{register}")
        text.line(f"init {word} {state} {value}")
        values.append(state)
    registers = list(values)
    place = text.line(f"slice {index} {registers[0]} {bits - 1} 0")
    values.append(text.line(f"read {word} {kept} {place}"))
    while len(text.lines) - first < lines - REGISTERS - 1:
        left, right, other = (draw.choice(values[-40:]) for _ in range(3))
        if draw.random() < 0.3:
            test = text.line(f"{draw.choice(['eq', 'ult', 'slt'])} {bit} {left} {right}")
            values.append(text.line(f"ite {word} {test} {other} {left}"))
        else:
            values.append(text.line(f"{draw.choice(OPERATORS)} {word} {left} {right}"))
    for register, value in zip(registers, values[-REGISTERS:]):
        text.line(f"next {word} {register} {value}")
    text.line(f"output {registers[0]} seen")
    return text.lines


print("\n".join(circuit(int(sys.argv[1]), int(sys.argv[2]))))
