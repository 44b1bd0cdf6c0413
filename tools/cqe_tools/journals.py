"""Journals: why one is refused, and what stands there."""

import hashlib
import os
import re

from . import texts
from .places import Finding, Spot, Text, quoted
from .sentences import refusal_of

MAGIC = b"CQEJRNL2"
OLD_MAGIC = b"CQEJRNL1"
HEADER = 73
KINDS = {1: "yes", 2: "no", 3: "refused", 4: "undecided", 5: "protected"}
READ = 8 * 1024 * 1024  # more than a full history takes
CAUSE = re.compile(r"not a journal|old version|other policy|disk fault|not admitted|not empty|"
                   r"(?:damaged|stale|size|unsafe) (\d+)|"
                   r"unlawful (\d+) stored (\w+) computed (\w+)")
KEEP = "Keep a copy of the journal before you change anything: what this user was told stands there alone."


class Journal:
    """The bytes of a journal."""

    def __init__(self, name, data):
        self.name = name
        self.data = data

    @classmethod
    def of(cls, directory, user):
        """The journal of a user in a directory; None where it can't be read."""
        name = os.path.join(directory, user + ".log")
        try:
            if not os.path.isfile(name):
                return None
            with open(name, "rb") as file:
                return cls(name, file.read(READ))
        except (OSError, ValueError):
            return None

    def record(self, number):
        """Where a record begins behind its gate, its kind and its text; None where there is none."""
        at = HEADER - 1
        for count in range(number + 1):
            if self.data[at:at + 1] != b"\x01":
                return None
            start, kind = at + 1, self.data[at + 1:at + 2]
            length = int.from_bytes(self.data[at + 2:at + 4], "big")
            if count == number:
                return start, kind[0] if kind else None, self.data[at + 4:at + 4 + length]
            at = at + 4 + length
        return None


def explain(said, name, cause, context):
    """The meaning of `cqe: journal NAME CAUSE`."""
    journal = Journal.of(context.journals, name) if context.journals else None
    match = CAUSE.fullmatch(cause)
    if match is None:
        return Finding(said, f"The journal of user {quoted(name)} is refused for a cause that no format names.")
    makers = {"not a journal": not_a_journal, "not admitted": not_admitted, "not empty": not_empty,
              "old version": old_version, "other policy": other_policy, "disk fault": disk_fault,
              "damaged": damaged, "stale": stale, "size": size, "unlawful": unlawful, "unsafe": unsafe}
    number = int(match[1] or match[2] or 0)
    return makers[cause if cause in makers else cause.split(" ")[0]](said, name, journal, number, context, match)


def place(journal, name, context):
    return journal.name if journal else os.path.join(context.journals or "DIR", name + ".log")


def not_a_journal(said, name, journal, number, context, match):
    file = place(journal, name, context)
    more = ""
    if journal is not None and journal.data.startswith(MAGIC) and len(journal.data) >= HEADER:
        return Finding(said, f"The journal of user {quoted(name)}, {file}, is of version 2, and migrate moves journals "
                       "of version 1.", None, "go on with this directory: there is nothing to move")
    if journal is not None:
        more = f" It has {texts.counted(len(journal.data), 'byte')}" + (
            f" and begins with {quoted(journal.data[:8])}." if journal.data and not journal.data.startswith(MAGIC)
            else ", and an empty journal has 73.")
    return Finding(said, f"The journal of user {quoted(name)}, {file}, is no journal.{more}", None,
                   "if it was never made, call cqe init; if it was lost or closed on purpose, put it back from where "
                   "it was kept first: a new one forgets what the user was told")


def old_version(said, name, journal, number, context, match):
    return Finding(said, f"The journal of user {quoted(name)}, {place(journal, name, context)}, is of version 1, which "
                   "an older program wrote.", None,
                   "move all journals once to a new directory, by cqe migrate with the same files and --to, and give "
                   "that directory from then on")


def not_empty(said, name, journal, number, context, match):
    file = os.path.join(context.to or "DIR2", name + ".log")
    return Finding(said, f"The journal of user {quoted(name)} would be moved to {file}, where something stands.", None,
                   "give --to a directory without journals: nothing is written over, and what a call that didn't end "
                   "with 0 left in its directory isn't used")


def other_policy(said, name, journal, number, context, match):
    which = []
    if journal is not None:
        for file, begin, what in ((context.policy_name, 8, "policy"), (context.facts_name, 40, "facts")):
            text = Text.of_file(file) if file else None
            if text is not None:
                same = hashlib.sha256(text.data).digest() == journal.data[begin:begin + 32]
                which.append(f"the {what} {file} "
                             f"{'is the one that it was made for' if same else 'has changed, or is another'}")
    more = " Compared: " + "; ".join(which) + "." if which else ""
    return Finding(said, f"The journal of user {quoted(name)}, {place(journal, name, context)}, was made for other "
                   f"bytes of the policy or of the facts.{more}", None,
                   "give the files that it was made for (one changed byte counts, in a comment too), or make new "
                   "journals in a new directory; what users learnt then has to stand in know")


def disk_fault(said, name, journal, number, context, match):
    return Finding(said, f"The journal of user {quoted(name)}, {place(journal, name, context)}, couldn't be read, or a "
                   f"call of its file failed earlier in this "
                   f"run, or with --standby the standby didn't answer for its records.", None,
                   "look at the disk (dmesg, df, ls -l), and whether the standby is reached, then start again: a file "
                   "that failed isn't opened again before that")


def damaged(said, name, journal, number, context, match):
    found = journal.record(number) if journal else None
    more = ""
    if found:
        start, kind, _ = found
        length = int.from_bytes(journal.data[start + 1:start + 3], "big")
        most = 4 if journal.data.startswith(OLD_MAGIC) else 5
        more = (f" It begins at byte {start} and has the kind {kind} and the length {length:,}; a kind is 1 to {most}, "
                f"a length at most 4,096.")
    return Finding(said, f"Record {number} (from 0) in the journal of user {quoted(name)}, "
                   f"{place(journal, name, context)}, isn't whole: somebody or the disk changed the "
                   f"file.{more}", None, f"put a copy back that holds all that he was told, or keep him closed. {KEEP}")


def record_spot(journal, number, start=0, end=None):
    """The text of a record, or a piece of it."""
    found = journal.record(number) if journal else None
    if found is None:
        return None
    text = Text(f"{journal.name}, record {number}, text", found[2])
    return Spot(text, start, len(found[2]) if end is None else end)


def stale(said, name, journal, number, context, match):
    spot, more = record_spot(journal, number), ""
    policy = context.policy
    if spot is not None and policy is not None and policy.root is not None:
        refused = refusal_of(policy.schema(), spot.text.data)
        if refused is not None:
            found = texts.about(policy.schema(), spot.text.data, refused.kind, refused.place)
            spot, more = record_spot(journal, number, found.start, found.end), f": {found.meaning}"
    return Finding(said, f"Record {number} (from 0) in the journal of user {quoted(name)} has a text that is no "
                   f"sentence{more}.", spot,
                   f"the program over these files never wrote it: the journal was changed, or comes from another "
                   f"version. {KEEP}")


def size(said, name, journal, number, context, match):
    return Finding(said, f"Record {number} (from 0) in the journal of user {quoted(name)} passes a limit: the history "
                   f"before it is full, its sentence is too large, or it adds a 17th secret.", record_spot(journal, number),
                   f"the program never wrote it: the journal was changed, or comes from another version. {KEEP}")


def unlawful(said, name, journal, number, context, match):
    stored, computed = match[3], match[4]
    return Finding(said, f"Record {number} (from 0) in the journal of user {quoted(name)} says '{stored}', and the "
                   f"censor answers '{computed}' there.",
                   record_spot(journal, number),
                   f"somebody changed the journal, or the user's method, knowledge or secrets are those of other "
                   f"files. {KEEP}")


def unsafe(said, name, journal, number, context, match):
    return Finding(said, f"Record {number} (from 0) in the journal of user {quoted(name)} adds a secret that isn't safe "
                   f"behind the records before it.", record_spot(journal, number),
                   f"the program never adds such a secret: the journal was changed, or the user's method, knowledge or "
                   f"secrets are those of other files. {KEEP}")


def not_admitted(said, name, journal, number, context, match):
    return Finding(said, f"The journal of user {quoted(name)} has records, and he isn't admitted by this policy and "
                   f"these facts.", record_spot(journal, 0),
                   f"the journal isn't his or was changed; cqe-check tells why he isn't admitted. {KEEP}")
