"""Refutations: when one is right, and the same as a pair of files, one in DIMACS and one in LRAT.

Clauses are numbered from 0 in a refutation and from 1 in the files. A clause is a list of literals as in `clauses`.
"""

from typing import NamedTuple


class Line(NamedTuple):
    """A clause of a refutation, and the numbers of the clauses that it is resolved from, in order."""

    clause: tuple
    chain: tuple


def is_right(clauses, lines):
    """Whether each line has the literals of its chain's result over the clauses before it, and the last one none."""
    known = list(clauses)
    for line in lines:
        result = chain_result(known, line.chain)
        if result is None or result != set(line.clause):
            return False
        known.append(line.clause)
    return bool(lines) and not lines[-1].clause


def chain_result(clauses, chain):
    """The literals of the first clause of a chain, resolved with each next one in turn; None where that has none."""
    if not chain or max(chain) >= len(clauses):
        return None
    result = set(clauses[chain[0]])
    for number in chain[1:]:
        result = resolvent(result, clauses[number])
        if result is None:
            return None
    return result


def resolvent(one, other):
    """What two clauses resolve to, which have opposite literals of just one variable; None where they have not."""
    clashes = {literal for literal in one if -literal in other}
    if len(clashes) != 1:
        return None
    literal, = clashes
    if -literal in one or literal in other:
        return None
    return {left for left in (*one, *other) if abs(left) != abs(literal)}


class Files(NamedTuple):
    """What two files say: the clauses in DIMACS, and their refutation in LRAT."""

    dimacs: str
    lrat: str


def files(clauses, variables, lines, comments=()):
    """A right refutation of clauses as a pair of files.

    Clauses and lines with both literals of a variable are left out: no line without both of them comes from one, and
    not every checker takes them. The others are numbered anew, from 1.
    """
    known, numbers = [*clauses, *(line.clause for line in lines)], {}
    for number, clause in enumerate(known):
        if not is_tautology(clause):
            numbers[number] = len(numbers) + 1
    kept = [clause for number, clause in enumerate(clauses) if number in numbers]
    head = [*(f"c {comment}" for comment in comments), f"p cnf {variables} {len(kept)}"]
    proof = [(numbers[number], *line.clause, 0, *(numbers[hint] for hint in hints_of(known, line)))
             for number, line in enumerate(lines, len(clauses)) if number in numbers]
    return Files("".join(f"{line}\n" for line in head + [ended(clause) for clause in kept]),
                 "".join(f"{ended(words)}\n" for words in proof))


def is_tautology(clause):
    return any(-literal in clause for literal in clause)


def ended(numbers):
    """Numbers in a line, with a 0 behind them."""
    return " ".join(map(str, (*numbers, 0)))


def hints_of(clauses, line):
    """The clauses by which LRAT finds a line, from the chain's end to its beginning.

    LRAT takes all literals of the line as false. Each hint has then one literal that isn't false, which becomes true,
    and the last hint has none. A clause of the chain whose literal is true by then tells nothing, and is left out.
    """
    true = {-literal for literal in line.clause}
    hints = []
    for number in reversed(line.chain):
        left = [literal for literal in clauses[number] if -literal not in true]
        if left and left[0] in true:
            continue
        hints.append(number)
        if not left:
            break
        true.add(left[0])
    return hints
