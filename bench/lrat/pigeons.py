"""Proofs that no pigeonhole formula of families.py is satisfied, written by rule and not by a solver."""
import itertools

from families import pigeonhole


class Proof:
    """Lines of LRAT, behind the clauses of a formula."""

    def __init__(self, formula, lines):
        self.last = len(formula)
        self.lines = lines

    def lemma(self, literals, hints):
        self.last += 1
        self.lines.append(" ".join(map(str, [self.last, *literals, 0, *hints, 0])))
        return self.last

    def delete(self, idents):
        self.lines.append(" ".join(map(str, [self.last, "d", *idents, 0])))


def ids_of(holes):
    """The ids of the formula's clauses: of each pigeon, and of two pigeons in a hole."""
    pairs = [(hole, one, other) for hole in range(holes) for one, other in itertools.combinations(range(holes + 1), 2)]
    apart = {}
    for ident, (hole, one, other) in enumerate(pairs, holes + 2):
        apart[one, other, hole] = apart[other, one, hole] = ident
    return list(range(1, holes + 2)), apart


def by_sets(holes, deletions):
    """Of the first pigeons one stands outside of each set with fewer holes: resolution, in 2 ^ holes steps."""
    lines = []
    proof = Proof(pigeonhole(holes), lines)
    at = lambda pigeon, hole: pigeon * holes + hole + 1
    pigeons, apart = ids_of(holes)
    outside = {(): pigeons[0]}
    for pigeon in range(1, holes + 1):
        more = {}
        for taken in itertools.combinations(range(holes), pigeon):
            clause = [at(k, hole) for k in range(pigeon + 1) for hole in range(holes) if hole not in taken]
            cases = []
            for hole in taken:
                fewer = outside[tuple(other for other in taken if other != hole)]
                hints = [apart[k, pigeon, hole] for k in range(pigeon)]
                cases.append(proof.lemma([-at(pigeon, hole), *clause], [*hints, fewer]))
            more[taken] = proof.lemma(clause, [*cases, pigeons[pigeon]])
            if deletions:
                proof.delete(cases)
        outside = more
    return lines


def by_definitions(holes, deletions):
    """One pigeon and one hole fewer, by new variables: extended resolution, in holes ^ 4 steps."""
    lines = []
    proof = Proof(pigeonhole(holes), lines)
    at = {(pigeon, hole): pigeon * holes + hole + 1 for pigeon in range(holes + 1) for hole in range(holes)}
    pigeons, apart = ids_of(holes)
    variable = (holes + 1) * holes
    for left in range(holes - 1, 0, -1):
        new, here, there, one, two = {}, {}, {}, {}, {}
        for pigeon in range(left + 1):
            for hole in range(left):
                variable += 1
                q, p, r, s = variable, at[pigeon, hole], at[pigeon, left], at[left + 1, hole]
                new[pigeon, hole] = q
                one[pigeon, hole] = proof.lemma([q, -p], [])
                two[pigeon, hole] = proof.lemma([q, -r, -s], [])
                groups = [-one[pigeon, hole], -two[pigeon, hole]]
                here[pigeon, hole] = proof.lemma([-q, p, r], groups)
                there[pigeon, hole] = proof.lemma([-q, p, s], groups)
        ids = []
        for pigeon in range(left + 1):
            hints = [one[pigeon, hole] for hole in range(left)] + [pigeons[pigeon]]
            hints += [two[pigeon, hole] for hole in range(left)] + [pigeons[left + 1], apart[pigeon, left + 1, left]]
            ids.append(proof.lemma([new[pigeon, hole] for hole in range(left)], hints))
        pairs = {}
        for hole in range(left):
            for i, k in itertools.combinations(range(left + 1), 2):
                halves = []
                for a, b in ((i, k), (k, i)):
                    hints = [apart[i, k, hole], here[a, hole], there[a, hole], apart[b, left + 1, hole]]
                    halves.append(proof.lemma([-new[a, hole], -at[b, hole]], hints))
                hints = [*halves, here[i, hole], here[k, hole], apart[i, k, left]]
                pairs[i, k, hole] = pairs[k, i, hole] = proof.lemma([-new[i, hole], -new[k, hole]], hints)
                if deletions:
                    proof.delete(halves)
        at, pigeons, apart = new, ids, pairs
    proof.lemma([], [pigeons[0], pigeons[1], apart[0, 1, 0]])
    return lines
