"""Clauses of propositional logic, and how counts are said by them."""
import itertools


class Clauses:
    """Clauses over numbered variables."""

    def __init__(self):
        self.count, self.clauses = 0, []

    def new(self):
        self.count += 1
        return self.count

    def several(self, count):
        return [self.new() for _ in range(count)]

    def add(self, *literals):
        self.clauses.append(literals)

    def at_most_one(self, literals):
        """By pairs where they are few, else by variables that say whether one came before."""
        if len(literals) <= 5:
            for one, other in itertools.combinations(literals, 2):
                self.add(-one, -other)
            return
        before = None
        for literal in literals:
            so_far = self.new()
            self.add(-literal, so_far)
            if before:
                self.add(-before, so_far)
                self.add(-before, -literal)
            before = so_far

    def exactly_one(self, literals):
        self.add(*literals)
        self.at_most_one(literals)

    def at_most(self, literals, most):
        """A counter of unary numbers: the variable k behind each literal says that more than k were true so far."""
        before = []
        for literal in literals:
            so_far = self.several(min(len(before) + 1, most))
            if so_far:
                self.add(-literal, so_far[0])
            for k, variable in enumerate(before):
                if k < len(so_far):
                    self.add(-variable, so_far[k])
                if k + 1 < len(so_far):
                    self.add(-variable, -literal, so_far[k + 1])
            if len(before) == most:
                self.add(-literal, *([-before[-1]] if before else []))
            before = so_far

    def odd(self, literals):
        """A variable that is true where an odd number of the literals is."""
        before = literals[0]
        for literal in literals[1:]:
            so_far = self.new()
            for one, other in itertools.product((1, -1), repeat=2):
                self.add(-one * before, -other * literal, -one * other * so_far)
            before = so_far
        return before

    def dimacs(self):
        lines = [" ".join(map(str, (*clause, 0))) for clause in self.clauses]
        return "\n".join([f"p cnf {self.count} {len(lines)}", *lines, ""])
