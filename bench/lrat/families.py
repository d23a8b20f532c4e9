"""Formulas that nothing satisfies, by family: each a name, and its clauses."""
import itertools
import random


def pigeonhole(holes):
    """One pigeon more than holes, and no two in one hole."""
    at = lambda pigeon, hole: pigeon * holes + hole + 1
    clauses = [[at(pigeon, hole) for hole in range(holes)] for pigeon in range(holes + 1)]
    for hole in range(holes):
        for one, other in itertools.combinations(range(holes + 1), 2):
            clauses.append([-at(one, hole), -at(other, hole)])
    return clauses


def random_clauses(variables, count, seed):
    """Clauses of three literals, each over three variables."""
    numbers = random.Random(seed)
    pick = lambda: numbers.sample(range(1, variables + 1), 3)
    return [[variable * numbers.choice((1, -1)) for variable in pick()] for _ in range(count)]


def parity(vertices, seed):
    """Edges of a random graph of degree four: each vertex has an even number of them, and one an odd number."""
    numbers = random.Random(seed)
    while True:
        ends = [vertex for vertex in range(vertices) for _ in range(4)]
        numbers.shuffle(ends)
        edges = [tuple(sorted(ends[k:k + 2])) for k in range(0, len(ends), 2)]
        if len(set(edges)) == len(edges) and all(one != other for one, other in edges):
            break
    clauses = []
    for vertex in range(vertices):
        own = [edge + 1 for edge, both in enumerate(edges) if vertex in both]
        wanted = 1 if vertex == 0 else 0
        for signs in itertools.product((1, -1), repeat=len(own)):
            if sum(sign < 0 for sign in signs) % 2 != wanted:
                clauses.append([sign * edge for sign, edge in zip(signs, own)])
    return clauses


class Circuit:
    """Gates as clauses."""

    def __init__(self, inputs):
        self.last = inputs
        self.clauses = []

    def gate(self, one, other, value):
        self.last += 1
        for a, b in itertools.product((False, True), repeat=2):
            self.clauses.append([-one if a else one, -other if b else other, self.last if value(a, b) else -self.last])
        return self.last

    def both(self, one, other):
        return self.gate(one, other, lambda a, b: a and b)

    def either(self, one, other):
        return self.gate(one, other, lambda a, b: a or b)

    def differ(self, one, other):
        return self.gate(one, other, lambda a, b: a != b)

    def add(self, ones, others):
        """The sum, and a carry."""
        carry, total = None, []
        for one, other in zip(ones, others):
            half = self.differ(one, other)
            if carry is None:
                total.append(half)
                carry = self.both(one, other)
            else:
                total.append(self.differ(half, carry))
                carry = self.either(self.both(one, other), self.both(half, carry))
        return total, carry

    def add_majority(self, ones, others):
        """The same by other gates."""
        carry, total = None, []
        for one, other in zip(ones, others):
            if carry is None:
                total.append(self.differ(other, one))
                carry = self.both(other, one)
            else:
                total.append(self.differ(one, self.differ(carry, other)))
                carry = self.either(self.both(carry, self.either(one, other)), self.both(other, one))
        return total, carry

    def multiply(self, ones, others):
        """The lower half of the product."""
        total = [self.both(one, others[0]) for one in ones]
        for shift in range(1, len(others)):
            row = [self.both(one, others[shift]) for one in ones[:len(ones) - shift]]
            total = total[:shift] + self.add(total[shift:], row)[0]
        return total

    def one_differs(self, ones, others):
        self.clauses.append([self.differ(one, other) for one, other in zip(ones, others)])
        return self.clauses


def adders(width):
    """Two adders that agree are said to differ."""
    ones, others = list(range(1, width + 1)), list(range(width + 1, 2 * width + 1))
    circuit = Circuit(2 * width)
    first, carry = circuit.add(ones, others)
    second, last = circuit.add_majority(ones, others)
    return circuit.one_differs([*first, carry], [*second, last])


def multipliers(width):
    """The product of two numbers in either order is said to differ."""
    ones, others = list(range(1, width + 1)), list(range(width + 1, 2 * width + 1))
    circuit = Circuit(2 * width)
    return circuit.one_differs(circuit.multiply(ones, others), circuit.multiply(others, ones))


# Those that a solver is given: it needs a second or two for each.
FAMILIES = {
    "solved-pigeonhole-7": lambda: pigeonhole(7),
    "solved-pigeonhole-8": lambda: pigeonhole(8),
    "solved-random-250": lambda: random_clauses(250, 1200, 3),
    "solved-parity-22": lambda: parity(22, 1),
    "solved-adders-128": lambda: adders(128),
    "solved-multipliers-8": lambda: multipliers(8),
}

# .. and ten small ones.
SMALL = {
    "pigeonhole-6": lambda: pigeonhole(6),
    "pigeonhole-7": lambda: pigeonhole(7),
    **{f"random-{seed}": (lambda seed=seed: random_clauses(120, 650, seed)) for seed in (1, 2, 3)},
    "parity-12": lambda: parity(12, 1),
    "parity-14": lambda: parity(14, 2),
    "adders-16": lambda: adders(16),
    "adders-32": lambda: adders(32),
    "multipliers-6": lambda: multipliers(6),
}


def write(clauses, name):
    """Writes DIMACS."""
    most = max(abs(literal) for clause in clauses for literal in clause)
    with open(name, "w") as out:
        out.write(f"p cnf {most} {len(clauses)}\n")
        for clause in clauses:
            out.write(" ".join(map(str, [*clause, 0])) + "\n")
