"""The rules of the three methods, as docs/DEFINITIONS.md has them: what is guarded, the probes, the mark."""

from functools import reduce
from typing import NamedTuple

from .sentences import joined


class Probe(NamedTuple):
    """Whether the log, and the premise where there is one, entail the goal.

    Premise and goal are each a sentence, and with False beside it its negation.
    """

    words: str  # what is asked, as a statement
    goal: tuple
    premise: tuple | None = None


def disjunction(secrets):
    """The disjunction of sentences in their order, grouped to the left."""
    return reduce(lambda one, other: joined("or", one, other), secrets)


def guarded(method, secrets):
    """What is guarded from a user, each with its words: of a liar the disjunction of his secrets alone."""
    if method == "lying":
        return [("the disjunction of the secrets", disjunction(secrets))]
    return [(f"secret {number}", secret) for number, secret in enumerate(secrets, 1)]


def admission(method, secrets):
    """The probes of an admission, of what the user knows."""
    return [Probe(f"what he knows entails {words}", (goal, True)) for words, goal in guarded(method, secrets)]


def of_query(method, secrets, query):
    """The probes of a query after the log, in the rule's order."""
    says = {True: "the query", False: "the query's negation"}
    implied = [Probe(f"the log entails {says[yes]}", (query, yes)) for yes in (True, False) if method == "refusal"]
    return implied + [Probe(f"the log with {says[yes]} entails {words}", (goal, True), (query, yes))
                      for yes in (True, False) for words, goal in guarded(method, secrets)]


def of_new_secret(method, secrets, secret):
    """The probe of one more secret after the log."""
    words, goal = guarded(method, [*secrets, secret])[-1]
    return Probe(f"the log entails {words}", (goal, True))


def mark(method, follow, truth):
    """The mark, where of the probes of a query these follow (none is spent), and this is the query's truth."""
    implied, harms = (follow[:2], follow[2:]) if method == "refusal" else ((), follow)
    yes_harms, no_harms = any(harms[:len(harms) // 2]), any(harms[len(harms) // 2:])
    if any(implied):
        return "yes" if implied[0] else "no"
    if (method == "refusal" and (yes_harms or no_harms)) or (method == "combined" and yes_harms and no_harms):
        return "refused"
    lies = yes_harms if truth else no_harms
    return "yes" if truth != lies else "no"
