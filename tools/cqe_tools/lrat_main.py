"""The command cqe-lrat: the refutations of a dossier as files that checkers of others read."""

import argparse
import os
import sys

from . import dossiers, facts, refutations, schemas
from .dossiers import Base, Dossier, Lines, NoDossier, User, secrets_of
from .places import Text
from .policies import METHODS, PolicyFile
from .sentences import Refused, sentence_of

DONE, REFUSED, WRONG_WORDS = 0, 1, 2
COMMENT = 200  # bytes of a comment at most: some readers of DIMACS have no room for long ones
DEEP = 20_000  # sentences nest deeper than Python's own limit of calls

ABOUT = """Reads a dossier of cqe from standard input, sees that it is right in all but one thing, and writes what is
left into a directory: for each block that follows a file of clauses in DIMACS and its refutation in LRAT, NNNN-NN.cnf
and NNNN-NN.lrat by the numbers of the item and of its block. A checker of others confirms each pair:

  cqe dossier --policy P --facts F --journals DIR --user NAME > DOSSIER
  cqe-lrat --policy P --facts F --user NAME --to PAIRS < DOSSIER
  for cnf in PAIRS/*.cnf; do lrat-check "$cnf" "${cnf%.cnf}.lrat"; done"""


class Unusable(Exception):
    """A file can't be used, for this reason."""


def options():
    parser = argparse.ArgumentParser(prog="cqe-lrat", description=ABOUT,
                                     formatter_class=argparse.RawDescriptionHelpFormatter, allow_abbrev=False)
    parser.add_argument("--policy", metavar="P", required=True, help="the policy file")
    parser.add_argument("--facts", metavar="F", required=True, help="the facts file")
    parser.add_argument("--user", metavar="NAME", required=True, help="whose dossier it is")
    parser.add_argument("--to", metavar="DIR", required=True, help="a directory without files; it is made where there "
                        "is none")
    return parser


def main(arguments):
    given = options().parse_args(arguments)
    sys.setrecursionlimit(DEEP)
    try:
        base, user = read(given)
        make_directory(given.to)
        items, pairs = turned(base, user, taken(), given.to)
    except NoDossier as refused:
        print(f"cqe-lrat: dossier {refused.kind} {refused.line}: {refused.why}", file=sys.stderr)
        return REFUSED
    except Unusable as why:
        print(f"cqe-lrat: {why}", file=sys.stderr)
        return REFUSED
    except OSError as error:
        print(f"cqe-lrat: {error.filename or 'standard input'}: {error.strerror}", file=sys.stderr)
        return REFUSED
    print(f"items {items}, pairs {pairs}")
    return DONE


def taken():
    """The dossier's bytes."""
    if sys.stdin is None:
        raise Unusable("there is no standard input")
    data = sys.stdin.buffer.read(dossiers.BYTES + 1)
    if len(data) > dossiers.BYTES:
        raise NoDossier(dossiers.LENGTH, 0, f"it has more than {dossiers.BYTES} bytes")
    return data


def read(given):
    """The base and the user of the policy and the facts."""
    policy, text = PolicyFile.of_file(given.policy), Text.of_file(given.facts)
    for name, found in ((given.policy, policy), (given.facts, text)):
        if found is None:
            raise Unusable(f"{name} can't be read")
    if policy.root is None or schemas.refusal(*policy.declarations()):
        raise Unusable(f"the program doesn't accept the policy {given.policy}: cqe-check says why")
    schema, number = policy.schema(), policy.user_named(given.user)
    if number is None:
        raise Unusable(f"the policy {given.policy} has no user {given.user}")
    try:
        user = user_of(schema, policy.users()[number])
    except (Refused, LookupError, TypeError, AttributeError) as error:
        raise Unusable(f"the program doesn't accept the user {given.user} of {given.policy}: cqe-check says "
                       "why") from error
    return Base(schema, facts_of(schema, text)), user


def user_of(schema, entry):
    """A user by his table in the policy."""
    said = {key: [sentence_of(schema, text.encode("utf-8")) for text in entry.get(key, [])]
            for key in ("know", "secrecies", "secrets")}
    secrets = secrets_of(said["secrecies"], said["secrets"])
    if entry["method"] not in METHODS or not secrets:
        raise LookupError
    return User(entry["name"], entry["method"], said["know"], secrets)


def facts_of(schema, text):
    try:
        return facts.read(schema, text)
    except facts.NoFact as fault:
        raise Unusable(f"the program doesn't accept the facts {text.name}: {fault.meaning}") from fault


def make_directory(name):
    """A directory in which nothing stands, so that no pair is one of an earlier call."""
    os.makedirs(name, 0o700, exist_ok=True)  # the pairs are as secret as the facts
    if os.listdir(name):
        raise Unusable(f"{name} isn't empty")


def turned(base, user, data, directory):
    """Writes the pairs of a dossier; how many items it has, and how many pairs there are."""
    dossier, pairs = Dossier(base, user, Lines(data)), 0
    for pair in dossier.pairs():
        name = os.path.join(directory, f"{pair.item.number:04}-{pair.number:02}")
        files = refutations.files(pair.clauses, pair.variables, pair.lines, comments(user, pair))
        write(name + ".cnf", files.dimacs)
        write(name + ".lrat", files.lrat)
        pairs += 1
    return dossier.items, pairs


def write(name, text):
    with open(name, "w", encoding="ascii") as file:
        file.write(text)


def comments(user, pair):
    """What a file of clauses says to a reader: whose it is, what it shows, and which variable is which fact."""
    said = [f"user {user.name}, item {pair.item.number}: ask {pair.item.mark} {pair.item.text}",
            f"block {pair.number} of {pair.blocks}: {pair.probe.words}", "variable 1 is true"]
    said += [f"variable {literal} is {fact[0]}({', '.join(fact[1:])})" for fact, literal in pair.facts.items()]
    return [line if len(line) <= COMMENT else line[:COMMENT] + ".." for line in said]
