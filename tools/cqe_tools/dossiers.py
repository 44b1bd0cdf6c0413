"""Dossiers: the text of a user's history with what shows each reply, read as docs/FORMATS.md says.

Whatever a dossier says is checked here but for one thing: that a refutation which is right shows what it says. For that
each becomes a pair of files, which a program of others confirms.
"""

import re
from dataclasses import dataclass, field
from typing import NamedTuple

from . import refutations, rules, schemas
from .clauses import Former, is_true
from .refutations import Line
from .sentences import Refused, joined, sentence_of

BYTES = 67_108_864
FORM, TEXT, VERDICT, MARK, LENGTH, ADMISSION, UNSAFE = range(1, 8)

NUMBER = r"(?:0|[1-9][0-9]{0,9})"
GREATEST = 2_147_483_646  # of the numbers in a line of a refutation
LINE = re.compile(rf"line((?: [+-]{NUMBER})*) :((?: {NUMBER})+)")
NAME = r"[A-Za-z][A-Za-z0-9_]*"
FACT = re.compile(rf"({NAME})\(((?:{NAME}(?:, {NAME})*)?)\)")
ITEM = re.compile(r"(?:ask (yes|no|refused|undecided)|protect) (.+)", re.DOTALL)
DONE = re.compile(rf"done ({NUMBER})")


class NoDossier(Exception):
    """Why a text is no dossier: the kind and the line of the formats, and a sentence."""

    def __init__(self, kind, line, why):
        super().__init__(why)
        self.kind, self.line, self.why = kind, line, why


@dataclass
class User:
    """A user: his know and his secrets are sentences, those of secrecies among them."""

    name: str
    method: str
    know: list
    secrets: list


@dataclass
class Base:
    """What all users are asked over: a schema and the facts."""

    schema: schemas.Schema
    facts: set


class Item(NamedTuple):
    """A line `ask` or `protect`."""

    number: int  # from 1
    line: int
    mark: str | None  # None for a secret that is added
    text: str
    sentence: tuple


class Pair(NamedTuple):
    """A block that follows, with the clauses that it is about."""

    item: Item
    number: int  # of the block among those of the item, from 1
    blocks: int  # how many the item has
    probe: rules.Probe
    clauses: list
    facts: dict
    variables: int
    lines: list


class Lines:
    """The lines of a text, one after the other, from 1."""

    def __init__(self, data):
        try:
            text = data.decode("utf-8")
        except UnicodeDecodeError as error:
            raise NoDossier(FORM, 0, "it isn't UTF-8") from error
        self.lines = text.split("\n")
        if self.lines[-1] == "":
            del self.lines[-1]
        self.number = 0

    def take(self, wanted):
        """The next line."""
        if self.number == len(self.lines):
            raise NoDossier(FORM, self.number + 1, f"the text ends where {wanted} has to stand")
        self.number += 1
        return self.lines[self.number - 1]

    def peek(self):
        return self.lines[self.number] if self.number < len(self.lines) else None

    def form(self, wanted):
        return NoDossier(FORM, self.number, f"here has to stand {wanted}")


@dataclass
class Dossier:
    """A text that is read as the dossier of a user."""

    base: Base
    user: User
    lines: Lines
    former: Former = field(init=False)
    secrets: list = field(init=False)  # with those that were added so far
    log: list = field(init=False)  # pairs of a sentence and whether it is stated
    items: int = 0
    bytes: int = 0  # of the items' texts

    def __post_init__(self):
        self.former = Former(self.base.schema)
        self.secrets = list(self.user.secrets)
        self.log = []
        for sentence in self.user.know:
            self.tell(sentence, True)

    def tell(self, sentence, stated):
        """Adds a sentence, or where it isn't stated its negation, to the log."""
        self.log.append((sentence, stated))
        self.former.add(sentence, stated)

    def pairs(self):
        """Each block that follows, while the text is read and all else is checked; NoDossier where it is refused."""
        self.head()
        self.admission()
        while (line := self.lines.take("an item or 'done'")).split(" ")[0] != "done":
            yield from self.item(line)
        done = DONE.fullmatch(line)
        if not done or int(done[1]) != self.items:
            raise self.lines.form(f"'done {self.items}', the number of the items")
        if self.lines.peek() is not None:
            raise NoDossier(FORM, self.lines.number + 1, "the text goes on behind 'done'")

    def head(self):
        line, wanted = self.lines.take("'dossier'"), f"dossier 1 {self.user.name} {self.user.method}"
        if line in (f"{wanted} closed", f"{wanted} sealed"):
            raise NoDossier(ADMISSION, self.lines.number, "the user isn't open, so nothing is shown of him")
        if line != f"{wanted} open":
            raise self.lines.form(f"'{wanted} open'")

    def admission(self):
        if self.lines.take("'admission'") != "admission":
            raise self.lines.form("'admission'")
        false = [number for number, (sentence, _) in enumerate(self.log, 1) if not self.is_true(sentence)]
        if self.user.method == "refusal" and false:
            raise NoDossier(ADMISSION, self.lines.number, f"sentence {false[0]} of what he knows is false by the facts")
        for probe in rules.admission(self.user.method, self.secrets):
            self.open_block(probe, ADMISSION, "what he knows tells a secret")

    def is_true(self, sentence):
        return is_true(self.base.schema, self.base.facts, sentence)

    def item(self, line):
        """The pairs of an item, of which this is the line."""
        match = ITEM.fullmatch(line)
        if not match:
            raise self.lines.form("'ask MARK TEXT', 'protect TEXT' or 'done N'")
        mark, text = match.groups()
        item = Item(self.items + 1, self.lines.number, mark, text, self.sentence(text, mark is None))
        if mark is None:
            self.protect(item)
        elif mark != "undecided":
            yield from self.ask(item)
        self.items += 1
        self.bytes += len(text)

    def sentence(self, text, is_secret):
        """The sentence of an item, which has to keep the limits."""
        bare = text.encode("utf-8")
        try:
            if len(bare) > schemas.TEXT_BYTES:
                raise self.beyond(f"the text has more than {schemas.TEXT_BYTES} bytes")
            sentence = sentence_of(self.base.schema, bare)
        except Refused as refused:
            raise self.beyond(f"the text is no sentence (error 20 {refused.kind} {refused.place})") from refused
        self.keep_limits(sentence, len(bare), is_secret)
        return sentence

    def beyond(self, why):
        return NoDossier(TEXT, self.lines.number, why)

    def keep_limits(self, sentence, length, is_secret):
        """What gets a code in place of a mark: 22, 21, 27."""
        if self.items == schemas.ANSWERS or self.bytes + length > schemas.ANSWERED_BYTES:
            raise self.beyond("the history before it is full (error 22)")
        more = 1 if is_secret else 0
        secrets = sum(1 + secret.nodes for secret in self.secrets)
        view = secrets + sum(told.nodes + (0 if stated else 1) for told, stated in self.log)
        if sentence.nodes > schemas.SENTENCE_NODES or view + more + sentence.nodes > schemas.VIEW_NODES or (
                is_secret and secrets + 1 + sentence.nodes > schemas.FIRST_VIEW_NODES):
            raise self.beyond("the sentence is too large (error 21)")
        if is_secret and len(self.secrets) == schemas.SECRETS:
            raise self.beyond(f"the user has {schemas.SECRETS} secrets (error 27)")

    def protect(self, item):
        probe = rules.of_new_secret(self.user.method, self.secrets, item.sentence)
        self.open_block(probe, UNSAFE, "the log isn't safe with this secret")
        self.secrets.append(item.sentence)

    def ask(self, item):
        """The pairs of an ask that has a mark, which has to be that of the rule by the blocks."""
        probes, follow = rules.of_query(self.user.method, self.secrets, item.sentence), []
        for number, probe in enumerate(probes, 1):
            before = self.former.mark()
            lines = self.block(probe)
            if lines is not None:
                yield Pair(item, number, len(probes), probe, list(self.former.clauses), dict(self.former.facts),
                           self.former.variables, lines)
            self.former.cut(before)
            follow.append(lines is not None)
        mark = rules.mark(self.user.method, follow, self.is_true(item.sentence))
        if item.mark != mark:
            raise NoDossier(MARK, item.line, f"the mark is '{item.mark}', and by the blocks below it is '{mark}'")
        if mark in ("yes", "no"):
            self.tell(item.sentence, mark == "yes")

    def open_block(self, probe, kind, why):
        """A block that has to be open."""
        if self.lines.peek() == "follows":
            raise NoDossier(kind, self.lines.number + 1, why)
        before = self.former.mark()
        self.block(probe)
        self.former.cut(before)

    def block(self, probe):
        """The refutation of a block that follows; None of one that is open. The former has then the probe's clauses."""
        for sentence, stated in self.added(probe):
            self.former.add(sentence, stated)
        line = self.lines.take("a block")
        if line == "follows":
            return self.refutation()
        word, _, rest = line.partition(" ")
        if word != "open":
            raise self.lines.form("'open FACTS' or 'follows'")
        self.show_open(probe, self.world(rest))
        return None

    def added(self, probe):
        """What a probe adds to the log: the premise, if there is one, and the negated goal."""
        goal, says = probe.goal
        return ([probe.premise] if probe.premise else []) + [(goal, not says)]

    def show_open(self, probe, world):
        """Sees that in a world all of the log and of what the probe adds is true."""
        for sentence, stated in self.log + self.added(probe):
            if is_true(self.base.schema, world, sentence) != stated:
                raise NoDossier(VERDICT, self.lines.number, "in this world a premise is false, or the goal is true")

    def world(self, text):
        """The world that a block names, in which facts stand in order."""
        facts = [] if text == "-" else [self.fact(part) for part in split_facts(text)]
        if facts != sorted(set(facts), key=self.place) or len(facts) > schemas.FACTS:
            raise self.lines.form("a world: each fact once, in the order of relations and constants")
        return set(facts)

    def fact(self, text):
        match = FACT.fullmatch(text)
        columns = self.base.schema.relations.get(match[1]) if match else None
        constants = match[2].split(", ") if match and match[2] else []
        if columns is None or [self.base.schema.domain_of.get(constant) for constant in constants] != columns:
            raise self.lines.form("a world: '-', or facts with one blank between two")
        return (match[1], *constants)

    def place(self, fact):
        """Where a fact stands among all facts."""
        schema = self.base.schema
        return (list(schema.relations).index(fact[0]),
                *(schema.domains[schema.domain_of[constant]].index(constant) for constant in fact[1:]))

    def refutation(self):
        """The lines of a refutation up to its end, where it has to be right."""
        lines = []
        while (line := self.lines.take("'line' or 'end'")) != "end":
            match = LINE.fullmatch(line)
            if not match or any(int(number) > GREATEST for number in re.findall(NUMBER, line)):
                raise self.lines.form("'line LITERALS : CHAIN' or 'end'")
            lines.append(Line(tuple(map(literal_of, match[1].split())), tuple(map(int, match[2].split()))))
        if not refutations.is_right(self.former.clauses, lines):
            raise NoDossier(VERDICT, self.lines.number, "the refutation isn't right")
        return lines


def split_facts(text):
    """The facts of a world's text: a blank behind a parenthesis ends one."""
    return text.replace(") ", ")\n").split("\n")


def literal_of(text):
    """A literal of a dossier, as variable 3 is +3 and its negation -3, as a number of DIMACS."""
    number = int(text[1:]) + 1
    return number if text[0] == "+" else -number


def secrets_of(secrecies, secrets):
    """A user's secrets: of each secrecy the sentence and its negation, then the others."""
    return [sentence for secrecy in secrecies for sentence in (secrecy, joined("not", secrecy))] + secrets
