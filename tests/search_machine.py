"""The search machine, written from its rules alone and not from the code or the definitions of this repository.

It prints a table of small clause lists, each with its end and whole cost. crates/clause_solver has the table in a test.
A literal is v + 1 for variable v, and -(v + 1) for its negation.
"""

import itertools
import sys


def run(given, variables):
    """The end ('model' with its signs, or 'refuted' with its lines) and the whole cost."""
    clauses = [list(clause) for clause in given]
    trail = []  # pairs of a literal and its cause, None where it was decided
    lines = []
    whole = 0

    def true(literal):
        return any(entry[0] == literal for entry in trail)

    def false(literal):
        return true(-literal)

    def current():
        return sum(1 for entry in trail if entry[1] is None)

    def level(literal):
        count = 0
        for entry, cause in trail:
            if cause is None:
                count += 1
            if abs(entry) == abs(literal):
                return count
        raise AssertionError("not assigned")

    def place(literal):
        return next(i for i, entry in enumerate(trail) if entry[0] == literal)

    def resolvent(first, second, variable):
        result = [l for l in first if abs(l) != variable]
        for l in second:
            if abs(l) != variable and l not in result:
                result.append(l)
        return result

    while True:
        conflict = next((i for i, c in enumerate(clauses) if all(false(l) for l in c)), None)
        if conflict is not None:
            c, chain = list(clauses[conflict]), [conflict]
            wanted = 1 if current() > 0 else 0
            while sum(1 for l in c if level(l) == current()) > wanted:
                latest = max(c, key=lambda l: place(-l))
                cause = trail[place(-latest)][1]
                c = resolvent(c, clauses[cause], abs(latest))
                chain.append(cause)
            whole += 1 + (len(chain) - 1) + len(c)
            lines.append((c, chain))
            if wanted == 0:
                return "refuted", lines, whole
            kept = [l for l in c if level(l) == current()]
            others = [l for l in c if level(l) != current()]
            back = max((level(l) for l in others), default=0)
            clauses.append(c)
            while current() > back:
                trail.pop()
            trail.append((kept[0], len(clauses) - 1))
            continue
        unit = None
        for i, c in enumerate(clauses):
            if any(true(l) for l in c):
                continue
            left = [l for l in c if not false(l)]
            if len(left) == 1:
                unit = (left[0], i)
                break
        if unit is not None:
            trail.append(unit)
            whole += 1
            continue
        free = next((v for v in range(variables) if not true(v + 1) and not true(-(v + 1))), None)
        whole += 1
        if free is None:
            return "model", [true(v + 1) for v in range(variables)], whole
        trail.append((-(free + 1), None))


TABLE = [
    ([], 0),
    ([], 1),
    ([[]], 0),
    ([[]], 3),
    ([[1]], 1),
    ([[1], [-1]], 1),
    ([[1, -1]], 1),
    ([[1, 2]], 2),
    ([[-1, -2]], 2),
    ([[1, 2], [1, -2]], 2),
    ([[1, 2], [1, -2], [-1, 2]], 2),
    ([[1, 2], [1, -2], [-1, 2], [-1, -2]], 2),
    ([[1, 2, 3], [-1], [-2], [-3]], 3),
    ([[3, 1], [3, -1], [-3, 2], [-3, -2]], 3),
    ([[1, 2, 3], [1, 2, -3], [1, -2, 3], [1, -2, -3], [-1, 2, 3], [-1, 2, -3], [-1, -2, 3], [-1, -2, -3]], 3),
    ([[1, 2, 3], [1, 2, -3], [1, -2, 3], [1, -2, -3], [-1, 2, 3], [-1, 2, -3], [-1, -2, 3]], 3),
    ([[1, 4], [2, 4], [3, 4], [1, 2, -4], [-1, -2], [-3, -4, 1]], 4),
    ([[1, 2], [3, 4], [-1, -3], [-1, -4], [-2, -3], [-2, -4]], 4),
    ([[1, 3, 5], [2, 4], [-5, 3], [-2, 5], [-4, 5], [-3, -5, 1], [-1, -5]], 5),
    ([[4, 5], [4, -5], [-4, 1, 2], [-4, 1, -2], [-1, 3], [-1, -3]], 5),
    ([[1, 2, 4], [-4, 5], [-5, -4, 3], [-3, 1, 2], [1, -2, 3], [-1, 2]], 5),
    ([[1, 2], [3, 4], [5, 6], [-1, -3], [-1, -5], [-3, -5], [-2, -4], [-2, -6], [-4, -6]], 6),
    ([[1], [-1, 2], [-2, 3], [-3, 4], [-4, 5], [-5, -1]], 5),
    ([[2, 3], [-2, 4], [-3, 4], [-4, 1], [-1, 5], [-5, -4, 6], [-6, -1]], 6),
    # the worked run of the hospital, with either answer
    ([[1], [4, 2], [4, -3], [-4, -2, 3], [7, 5], [7, -6], [-7, -5, 6], [-8, 4], [-8, 7], [8, -4, -7], [8], [2], [-3]], 8),
    ([[1], [4, 2], [4, -3], [-4, -2, 3], [7, 5], [7, -6], [-7, -5, 6], [-8, 4], [-8, 7], [8, -4, -7], [8], [-2], [-3]], 8),
]


def main():
    for clauses, variables in TABLE:
        end, found, cost = run(clauses, variables)
        if end == "model":
            assert all(any((l > 0) == found[abs(l) - 1] for l in c) for c in clauses)
        else:
            assert not any(
                all(any((l > 0) == signs[abs(l) - 1] for l in c) for c in clauses)
                for signs in itertools.product([False, True], repeat=variables)
            )
        print(clauses, variables, end, found, cost)
    return 0


if __name__ == "__main__":
    sys.exit(main())
