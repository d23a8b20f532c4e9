#!/usr/bin/env python3
"""Makes an LRAT proof, with hints and RAT groups, of a DRAT proof in text: lrat_of_drat.py FORMULA DRAT LRAT

It is not proved and need not be: `knox check` decides what it made. A deletion of a clause by which a
literal is true at the root is left out, as other checkers of DRAT leave it out. Ends with 1 where a lemma
isn't one that DRAT allows.
"""
import sys


class Clauses:
    """The live clauses, what they make true, and which clause made it true."""

    def __init__(self):
        self.lits = {}
        self.named = {}
        self.watching = {}
        self.holding = {}
        self.true = {}
        self.reason = {}
        self.trail = []
        self.done = 0
        self.conflict = None

    def add(self, ident, lits):
        """Adds a clause, and takes what follows at the root."""
        lits = list(dict.fromkeys(lits))
        lits.sort(key=lambda lit: self.true.get(lit) is False)
        self.lits[ident] = lits
        self.named.setdefault(frozenset(lits), []).append(ident)
        for lit in lits:
            self.holding.setdefault(lit, {})[ident] = True
        for lit in lits[:2]:
            self.watching.setdefault(lit, []).append(ident)
        left = [lit for lit in lits if self.true.get(lit) is not False]
        if not left:
            self.conflict = ident
        elif len(lits) == 1 and self.true.get(lits[0]):
            self.reason[lits[0]] = ident
        elif len(left) == 1 and self.true.get(left[0]) is None:
            self.assume(left[0], ident)
            self.conflict = self.propagate()

    def delete(self, lits):
        """Deletes one clause of these literals, and answers its id, if it is no reason."""
        idents = self.named.get(frozenset(lits), [])
        for ident in idents:
            if any(self.reason.get(lit) == ident for lit in self.lits[ident]):
                continue
            idents.remove(ident)
            for lit in self.lits.pop(ident):
                del self.holding[lit][ident]
            return ident
        return None

    def assume(self, lit, ident=None):
        self.true[lit] = True
        self.true[-lit] = False
        self.reason[lit] = ident
        self.trail.append(lit)

    def undo(self, count):
        while len(self.trail) > count:
            lit = self.trail.pop()
            del self.true[lit], self.true[-lit], self.reason[lit]
        self.done = min(self.done, count)

    def propagate(self):
        """The id of a clause that is false, if there is one."""
        while self.done < len(self.trail):
            falsified = -self.trail[self.done]
            self.done += 1
            kept = []
            watching = self.watching.get(falsified, [])
            for at, ident in enumerate(watching):
                lits = self.lits.get(ident)
                if lits is None or falsified not in lits[:2]:
                    continue
                if len(lits) > 1 and lits[0] == falsified:
                    lits[0], lits[1] = lits[1], lits[0]
                first = lits[0]
                if self.true.get(first) and first != falsified:
                    kept.append(ident)
                    continue
                for k in range(2, len(lits)):
                    if self.true.get(lits[k]) is not False:
                        lits[1], lits[k] = lits[k], lits[1]
                        self.watching.setdefault(lits[1], []).append(ident)
                        break
                else:
                    kept.append(ident)
                    if self.true.get(first) is False:
                        self.watching[falsified] = kept + watching[at + 1:]
                        return ident
                    self.assume(first, ident)
            self.watching[falsified] = kept
        return None

    def hints(self, lits, last):
        """The ids that make all these literals false, in order, and then a last one."""
        wanted = {-lit for lit in lits}
        found = []
        for lit in reversed(self.trail):
            if lit in wanted and self.reason[lit] is not None:
                found.append(self.reason[lit])
                wanted.update(-other for other in self.lits[self.reason[lit]] if other != lit)
        return found[::-1] + last

    def deny(self, lits):
        """Takes literals to be false. The hints that show that this can't be, or None."""
        for lit in lits:
            if self.true.get(lit):
                last = self.reason[lit]
                if last is None:
                    return []
                return self.hints([other for other in self.lits[last] if other != lit], [last])
            if self.true.get(lit) is None:
                self.assume(-lit)
        false = self.propagate()
        return None if false is None else self.hints(self.lits[false], [false])

    def groups(self, pivot):
        """The groups of a lemma whose literals are false, or None."""
        found = []
        for ident in sorted(self.holding.get(-pivot, {})):
            count = len(self.trail)
            hints = self.deny([lit for lit in self.lits[ident] if lit != -pivot])
            self.undo(count)
            if hints is None:
                return None
            found += [-ident, *hints]
        return found

    def shown(self, lits):
        """The hints of a lemma, or None."""
        count = len(self.trail)
        hints = self.deny(lits)
        if hints is None and lits:
            hints = self.groups(lits[0])
        self.undo(count)
        return hints


def formula(name):
    numbers = []
    with open(name) as text:
        for line in text:
            if line[:1] not in ("c", "p", "%"):
                numbers += map(int, line.split())
    clause = []
    for number in numbers:
        if number:
            clause.append(number)
        else:
            yield clause
            clause = []


def main():
    clauses = Clauses()
    ident = 0
    for lits in formula(sys.argv[1]):
        ident += 1
        clauses.add(ident, lits)
    with open(sys.argv[2]) as proof, open(sys.argv[3], "w") as out:
        for place, line in enumerate(proof, 1):
            words = line.split()
            if clauses.conflict is not None or not words or words[0] == "c":
                continue
            lits = [int(word) for word in words if word != "d"][:-1]
            if words[0] == "d":
                gone = clauses.delete(lits)
                if gone is not None:
                    print(ident, "d", gone, 0, file=out)
                continue
            hints = clauses.shown(lits)
            if hints is None:
                sys.exit(f"line {place} isn't a lemma of DRAT")
            ident += 1
            print(ident, *lits, 0, *hints, 0, file=out)
            if not lits:
                return
            clauses.add(ident, lits)
        if clauses.conflict is None:
            sys.exit("the proof doesn't reach the empty clause")
        print(ident + 1, 0, *clauses.hints(clauses.lits[clauses.conflict], [clauses.conflict]), 0, file=out)


main()
