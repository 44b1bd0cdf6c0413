"""The command cqe-check: a table of what a policy will do before anybody meets it."""

import argparse
import os
import sys
from pathlib import Path

from . import facts, schemas
from .checking import Check, Refusal, Unusable, in_temporary_directory, program
from .explaining import Context, Explainer, printed

ALL_OPEN, NOT_ALL, WRONG = 0, 1, 2
COLUMNS = ("user", "method", "standing", "login", "know", "secrets", "sentence", "view")

ABOUT = """Makes journals for a policy and its facts in a temporary directory, audits each user, and prints what
the program will do: who is open and who is closed and why, who can log in, what the facts contradict, and the sizes.
It ends with 0 where every user is open, with 1 where one isn't or a file is refused, and with 2 where its words are
wrong or the program can't be asked."""


def main(arguments):
    parser = argparse.ArgumentParser(prog="cqe-check", description=ABOUT,
                                     formatter_class=argparse.RawDescriptionHelpFormatter, allow_abbrev=False)
    parser.add_argument("policy", metavar="P", help="the policy file")
    parser.add_argument("facts", metavar="F", help="the facts file")
    given = parser.parse_args(arguments)
    try:
        path = program(Path(sys.argv[0]).resolve().parent)
        return in_temporary_directory(path, os.path.abspath(given.policy), given.facts, lambda asker,
                                      journals: checked(given, asker, journals))
    except Refusal as refusal:
        return refused(given, refusal)
    except Unusable as why:
        print(f"cqe-check: {why}", file=sys.stderr)
        return WRONG


def refused(given, refusal):
    """Explains why the program refuses a file."""
    explainer = Explainer(Context(given.policy, given.facts))
    for line in refusal.complaints:
        if not explainer.take(line.replace(os.path.abspath(given.policy),
                                           given.policy).replace(os.path.abspath(given.facts), given.facts)):
            print(line)
    print("\n".join(printed(explainer.findings())))
    return NOT_ALL


def checked(given, asker, journals):
    """Prints what the program will do with files that it accepts."""
    context = Context(os.path.abspath(given.policy), given.facts)
    if context.policy is None or context.policy.root is None:
        raise Unusable("the program reads the policy, and this tool can't: write it in plain TOML 1.0, as "
                       "examples/ward.policy")
    standings = Check(asker, context.policy).standings(journals)
    lines = table(standings) + remarks(standings) + ["", *sizes(context, standings)]
    print("\n".join(lines))
    return ALL_OPEN if all(standing.is_open for standing in standings) else NOT_ALL


def table(standings):
    rows = [COLUMNS] + [row(standing) for standing in standings]
    widths = [max(len(row[column]) for row in rows) for column in range(len(COLUMNS))]
    right = [column > 3 for column in range(len(COLUMNS))]
    return ["  ".join(cell.rjust(width) if is_right else cell.ljust(width) for cell, width,
                      is_right in zip(row, widths, right)).rstrip()
            for row in rows]


def row(standing):
    user, found = standing.user, standing.sizes
    return (user["name"], user["method"], "open" if standing.is_open else "closed", "yes" if "token" in user else "no",
            str(found["know"]), str(found["secrets"]), f"{found['sentence']:,}", f"{found['view']:,}")


def remarks(standings):
    """The sentences below the table."""
    lines = []
    for standing in standings:
        said = [f"closed (error 24): {reason}" for reason in standing.reasons] + [f"note: {note}"
            for note in standing.notes]
        said += near_limits(standing.sizes)
        if said:
            lines += ["", f"{standing.name}:"] + ["  " + line for line in said]
    closed = sum(not standing.is_open for standing in standings)
    lines += ["", f"{len(standings) - closed} of {len(standings)} users are open." if closed else
              ("The user is open." if len(standings) == 1 else f"All {len(standings)} users are open.")]
    return lines


def near_limits(found):
    """What is above nine tenths of its limit."""
    limits = (("sentence", "his largest sentence", schemas.SENTENCE_NODES),
              ("view", "his view", schemas.FIRST_VIEW_NODES))
    return [f"note: {what} has {found[key]:,} of {limit:,} nodes" for key, what,
            limit in limits if found[key] * 10 > limit * 9]


def sizes(context, standings):
    """Each size with its limit."""
    domains, relations = context.policy.declarations()
    largest = max(domains, key=lambda pair: len(pair[1])) if domains else ("-", [])
    rows = [
        ("users", len(standings), schemas.USERS), ("domains", len(domains), schemas.DOMAINS),
        (f"constants of a domain ({largest[0]})", len(largest[1]), schemas.CONSTANTS),
        ("relations", len(relations), schemas.RELATIONS),
        ("facts", facts.count(context.facts) if context.facts else 0, schemas.FACTS),
    ]
    twice = ", two for each secrecy" if any(standing.user.get("secrecies") for standing in standings) else ""
    for what, key, limit in (("known sentences of a user", "know", schemas.KNOWN),
                             (f"secrets of a user{twice}", "secrets", schemas.SECRETS),
                             ("nodes of a sentence", "sentence", schemas.SENTENCE_NODES),
                             ("nodes of a view without answers", "view", schemas.FIRST_VIEW_NODES)):
        most = max(standings, key=lambda standing: standing.sizes[key])
        rows.append((f"{what} ({most.name})", most.sizes[key], limit))
    room = min(schemas.VIEW_NODES - standing.sizes["view"] for standing in standings)
    rows.append(("answers of a user, none yet", max(standing.sizes["answers"] for standing in standings),
                 schemas.ANSWERS))
    width = max(len(what) for what, _, _ in rows)
    lines = [f"{what.ljust(width)}  {size:>9,} of {limit:>9,}" for what, size, limit in rows]
    return lines + [f"A user's answers may have {room:,} to "
                    f"{schemas.VIEW_NODES - min(s.sizes['view'] for s in standings):,} nodes together (a view has at "
                    f"most {schemas.VIEW_NODES:,})."]
