"""Writes what a design is simulated on: stimuli.py DESIGN.v TICKS SEED FOLDER.

FOLDER/NAME.inputs has a line for each tick with the inputs' words in hexadecimal, by name.
FOLDER/NAME_bench.v is a testbench that reads it and prints the outputs before each clock edge.
"""
import random
import re
import sys

PORT = re.compile(r"^\s*(input|output)\s+(?:signed\s+)?(?:\[(\d+):0\]\s*)?([\w, ]+?),?\s*$", re.M)
PHASE = 64


def ports_of(text):
    """The ports of a design, by direction, as names and widths."""
    found = {"input": [], "output": []}
    for direction, high, names in PORT.findall(text):
        for name in names.split(","):
            found[direction].append((name.strip(), int(high or 0) + 1))
    found["input"].remove(("clk", 1))
    return found


class Source:
    """The words of one input. A bit is set with a likelihood that changes from phase to phase, a
    reset more rarely, and most of the longer words come from a few, so that equal words meet."""

    def __init__(self, draw, name, width):
        self.draw, self.name, self.width = draw, name, width
        self.usual = [draw.getrandbits(width), draw.getrandbits(width), 1, (1 << width) - 1]
        self.likelihoods = [0, 0.02, 0.2] if name == "reset" else [0.1, 0.5, 0.9]

    def word(self, tick):
        if tick % PHASE == 0:
            self.likelihood = self.draw.choice(self.likelihoods)
        if self.width == 1:
            return int(self.draw.random() < self.likelihood)
        if self.width > 2 and self.draw.random() < 0.7:
            return self.draw.choice(self.usual)
        return self.draw.getrandbits(self.width)


def testbench(name, inputs, outputs):
    """A testbench that ticks the design for each line of its inputs."""
    lines = ["module bench;", "  reg clk = 0;", "  integer file, taken;"]
    lines += [f"  reg [{width - 1}:0] {port};" for port, width in inputs]
    lines += [f"  wire [{width - 1}:0] {port};" for port, width in outputs]
    places = ", ".join(f".{port}({port})" for port, _ in [("clk", 1)] + inputs + outputs)
    read = " ".join(f"{port}=%h" for port, _ in inputs)
    shown = " ".join(f"{port}=%h" for port, _ in outputs)
    taken = ", ".join(port for port, _ in inputs)
    given = ", ".join(port for port, _ in outputs)
    scan = f'taken = $fscanf(file, "{read}\\n", {taken});'
    lines += [
        f"  {name} device ({places});",
        "  initial begin",
        f'    file = $fopen("{name}.inputs", "r");',
        f"    {scan}",
        f"    while (taken == {len(inputs)}) begin",
        f'      #5 $display("{shown}", {given});',
        "      clk = 1;",
        "      #5 clk = 0;",
        f"      {scan}",
        "    end",
        "    $finish(0);",
        "  end",
        "endmodule",
    ]
    return "\n".join(lines) + "\n"


def main(design, ticks, seed, folder):
    with open(design) as file:
        text = file.read()
    name = re.search(r"^module (\w+)", text, re.M)[1]
    ports = ports_of(text)
    draw = random.Random(f"{name} {seed}")
    sources = [Source(draw, port, width) for port, width in ports["input"]]
    with open(f"{folder}/{name}.inputs", "w") as file:
        for tick in range(int(ticks)):
            file.write(" ".join(f"{s.name}={s.word(tick):x}" for s in sources) + "\n")
    with open(f"{folder}/{name}_bench.v", "w") as file:
        file.write(testbench(name, ports["input"], ports["output"]))


main(*sys.argv[1:])
