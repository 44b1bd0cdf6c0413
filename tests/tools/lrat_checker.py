"""A checker of LRAT for tests, where no foreign one is there: lrat_checker.py CNF LRAT.

It knows nothing of cqe: it reads a formula in DIMACS and a proof in LRAT, of which it takes the lines that follow by
propagation alone. Each line has a greater number than the one before it. With all its literals false each hint in turn
leaves one literal, which is made true, and the last hint leaves none. Some line has no literal.
"""

import sys


class NoProof(Exception):
    """Why a proof shows nothing."""


def formula(text):
    """The clauses of a formula by their numbers, from 1."""
    words = []
    for line in text.splitlines():
        if line.startswith("p "):
            _, sort, variables, count = line.split()
        elif not line.startswith("c"):
            words += map(int, line.split())
    clauses, clause = {}, []
    for word in words:
        clause.append(word)
        if word == 0:
            clauses[len(clauses) + 1] = frozenset(clause) - {0}
            clause = []
    if sort != "cnf" or clause or len(clauses) != int(count) or any(abs(word) > int(variables) for word in words):
        raise NoProof("the formula isn't what its first line says")
    return clauses


def check(cnf, lrat):
    """Sees that a proof in LRAT refutes a formula; NoProof where it doesn't."""
    clauses, last, is_refuted = formula(cnf), 0, False
    last = len(clauses)
    for line in lrat.splitlines():
        number, *words = line.split()
        if words[0] == "d":
            for gone in words[1:-1]:
                clauses.pop(int(gone))
            continue
        words = list(map(int, words))
        end = words.index(0)
        clause, hints = frozenset(words[:end]), words[end + 1:-1]
        if words[-1] != 0 or int(number) <= last:
            raise NoProof(f"line {number} isn't one of a proof")
        last = int(number)
        follow(clauses, clause, hints, last)
        clauses[last] = clause
        is_refuted = is_refuted or not clause
    if not is_refuted:
        raise NoProof("no line is empty")


def follow(clauses, clause, hints, number):
    """Sees that a clause follows by its hints."""
    false = set(clause)
    for hint in hints:
        if hint not in clauses:
            raise NoProof(f"hint {hint} of line {number} is no clause")
        left = clauses[hint] - false
        if not left:
            return
        literal = next(iter(left))
        if len(left) > 1 or -literal in false:
            raise NoProof(f"hint {hint} of line {number} leaves more than one literal, or a true one")
        false.add(-literal)
    raise NoProof(f"line {number} doesn't follow by its hints")


if __name__ == "__main__":
    try:
        check(*(open(name, encoding="ascii").read() for name in sys.argv[1:]))
    except NoProof as why:
        sys.exit(f"c NOT VERIFIED: {why}")
    print("c VERIFIED")
