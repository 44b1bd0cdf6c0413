#!/usr/bin/env python3
"""Makes up a statistics office from a seed: tests/office.py DIRECTORY [--seed N] [--users N] [--facts N] [--asks N] ..

It writes the files `policy` and `facts` into the directory, and for each user the file `asks/NAME`, a question in each
line. The same words write the same bytes, and a longer list of questions begins with the shorter one.

The office has a register of firms. Which firm is of which branch, sector and region is public; what the firms sell,
export and supply was asked in a survey, and who made a loss or was subsidised was told in confidence. Two firms make a
branch, so each of them could work out the figure of the other. The users are treated by all methods in turn, three by
three in one of four ways (WAYS), twelve by twelve with one of five budgets. What a user knows is true.

The sizes that are there without further words are the limits of docs/FORMATS.md: 256 users, 100,000 facts, domains of
1,024 constants, 40,000 nodes in what each user knows and in his secrets, and histories of 4,096 questions. A question
takes so few nodes that the whole list fits into the history, whatever the answers are.
"""

import argparse
import random
import sys
from dataclasses import dataclass, field
from hashlib import sha256
from pathlib import Path

sys.path.insert(0, str(Path(__file__).resolve().parent.parent / "tools"))

from cqe_tools import schemas  # noqa: E402

METHODS = ("lying", "refusal", "combined")
BUDGETS = (None, schemas.BUDGET, 250_000, 100_000, 20_000)
DOMAINS = ("branch", "firm", "product", "region", "sector")
RELATIONS = {
    "exports": ("firm", "region"),
    "in_branch": ("firm", "branch"),
    "in_region": ("firm", "region"),
    "in_sector": ("firm", "sector"),
    "made_loss": ("firm",),
    "sells": ("firm", "product"),
    "subsidised": ("firm",),
    "supplies": ("firm", "firm"),
    "surveyed": ("firm",),
}
TRADE = ("exports", "sells", "supplies")
FIRMS_OF_A_BRANCH = 2
BRANCHES_OF_A_SECTOR = 16
WIDEST = 9  # so many branches in one secret: 19 nodes for each firm
TOLD_NODES = 2  # a fact that is answered by no


@dataclass(frozen=True)
class Sentence:
    """A text, and how many nodes it has when its quantifiers are written out."""

    text: str
    nodes: int


def atom(relation, *terms):
    return Sentence(f"{relation}({', '.join(terms)})", 1)


def equal(one, other):
    return Sentence(f"{one} = {other}", 1)


def negated(sentence):
    return Sentence(f"not {sentence.text}", 1 + sentence.nodes)


def joined(word, *parts):
    """The parts with a connective between each two; one part alone stays as it is."""
    if len(parts) == 1:
        return parts[0]
    text = f" {word} ".join(part.text for part in parts)
    return Sentence(f"({text})", sum(part.nodes for part in parts) + len(parts) - 1)


class Chance:
    """Draws. Of Python's generators `random` alone draws the same numbers in each version."""

    def __init__(self, seed, part):
        self.source = random.Random(seed * 1000 + part)

    def below(self, count):
        return int(self.source.random() * count)

    def one_of(self, things):
        return things[self.below(len(things))]

    def holds(self, part):
        """True in so many cases of 100."""
        return self.below(100) < part

    def several(self, things, count):
        """So many different ones, or all in another order where there are fewer."""
        left, taken = list(things), []
        while left and len(taken) < count:
            taken.append(left.pop(self.below(len(left))))
        return taken


class Office:
    """The register of the firms, and the sentences over it."""

    def __init__(self, seed, constants):
        self.constants = constants
        self.names = {domain: [f"{domain}_{number}" for number in range(constants)] for domain in DOMAINS}
        self.firms = self.names["firm"]
        self.chance = Chance(seed, 0)
        order = self.chance.several(self.firms, constants)
        places = {firm: place // FIRMS_OF_A_BRANCH for place, firm in enumerate(order)}
        self.branch = {firm: self.names["branch"][places[firm]] for firm in self.firms}
        self.sector = {firm: self.names["sector"][places[firm] // BRANCHES_OF_A_SECTOR] for firm in self.firms}
        self.region = {firm: self.chance.one_of(self.names["region"]) for firm in self.firms}
        self.members = {}
        for firm in self.firms:
            self.members.setdefault(self.branch[firm], []).append(firm)

    def public(self, firm):
        """What is public of a firm."""
        return [atom("in_branch", firm, self.branch[firm]), atom("in_region", firm, self.region[firm]),
                atom("in_sector", firm, self.sector[firm])]

    def confidential(self, firm):
        """What is true of a firm and was told in confidence. Who is subsidised made a loss, and who did was surveyed."""
        surveyed = self.chance.holds(80)
        lost = surveyed and self.chance.holds(30)
        subsidised = lost and self.chance.holds(40)
        relations = ("surveyed",) * surveyed + ("made_loss",) * lost + ("subsidised",) * subsidised
        return [atom(relation, firm) for relation in relations]

    def trade(self, chance):
        relation = chance.one_of(TRADE)
        return atom(relation, *(chance.one_of(self.names[domain]) for domain in RELATIONS[relation]))

    def facts(self, count):
        """So many different facts, the register first."""
        register = [fact.text for firm in self.firms for fact in self.public(firm) + self.confidential(firm)]
        if not len(register) <= count <= len(register) + self.constants ** 2:
            sys.exit(f"office: with {self.constants} constants a domain there are {len(register):,} to "
                     f"{len(register) + self.constants ** 2:,} facts")
        stated = dict.fromkeys(register)
        while len(stated) < count:
            stated[self.trade(self.chance).text] = None
        return list(stated)

    def of_firms(self, quantifier, body):
        return Sentence(f"{quantifier} x: firm . {body.text}", 1 + self.constants * body.nodes)

    def loss_in(self, branches):
        """Some firm of these branches made a loss."""
        within = joined("or", *(atom("in_branch", "x", branch) for branch in branches))
        return self.of_firms("exists", joined("and", within, atom("made_loss", "x")))

    def export_to(self, region):
        """Some firm exports to the region."""
        return self.of_firms("exists", atom("exports", "x", region))

    def firms_of(self, branch):
        """Which firms a branch has."""
        some = joined("or", *(equal("x", firm) for firm in self.members[branch]))
        return self.of_firms("forall", joined("<->", atom("in_branch", "x", branch), some))

    def some_firm_of(self, branch):
        """There is a firm in the branch."""
        return self.of_firms("exists", atom("in_branch", "x", branch))

    def rule(self, one, other):
        """Whichever firm makes the first true makes the second true."""
        return self.of_firms("forall", joined("->", one, other))

    def rules(self):
        """Two rules that are true of each firm."""
        return [self.rule(atom("made_loss", "x"), atom("surveyed", "x")),
                self.rule(atom("subsidised", "x"), atom("made_loss", "x"))]

    def sector_of(self, branch):
        """The sector of each firm of a branch."""
        sector = self.sector[self.members[branch][0]]
        return self.rule(atom("in_branch", "x", branch), atom("in_sector", "x", sector))


@dataclass
class Way:
    """What a user may know and what is kept from him, each in the order in which it is given room."""

    branches: list
    regions: list = field(default_factory=list)
    secrets: list = field(default_factory=list)
    secrecies: list = field(default_factory=list)
    know: list = field(default_factory=list)


def alternating(one, other):
    return [sentence for pair in zip(one, other) for sentence in pair]


def branches_with_firms(office, chance, count):
    return chance.several(list(office.members), count)


def large_secrets(office, chance, nodes):
    """Two secrets as large as a sentence may be; he knows little of their firms."""
    width = max(1, min(WIDEST, len(office.members) // 2, ((nodes // 2 - 2) // office.constants - 1) // 2))
    branches = branches_with_firms(office, chance, 2 * width)
    secrets = [office.loss_in(branches[:width]), office.loss_in(branches[width:])]
    return Way(branches, secrets=secrets, know=[office.some_firm_of(branches[0])])


def many_secrets(office, chance, _nodes):
    """As many secrets as a user may have, with quantifiers; he knows the firms of one branch, and much of others."""
    branches = branches_with_firms(office, chance, schemas.SECRETS // 2)
    regions = chance.several(office.names["region"], schemas.SECRETS // 2)
    secrets = alternating([office.loss_in([branch]) for branch in branches], map(office.export_to, regions))
    return Way(branches, regions, secrets, know=[office.firms_of(branches[0])])


def much_known(office, chance, _nodes):
    """Small secrets, and rules and branches that he knows."""
    branches = branches_with_firms(office, chance, 5)
    secrets = [atom("made_loss", firm) for branch in branches[:2] for firm in office.members[branch]]
    known = [office.firms_of(branch) for branch in branches] + office.rules()
    return Way(branches, secrets=secrets, know=known + [office.sector_of(branch) for branch in branches[:2]])


def both_ways(office, chance, _nodes):
    """As many secrecies as a user may have; he knows the firms of one branch."""
    branches = branches_with_firms(office, chance, schemas.SECRECIES // 2)
    regions = chance.several(office.names["region"], schemas.SECRECIES // 2)
    secrecies = alternating([office.loss_in([branch]) for branch in branches], map(office.export_to, regions))
    return Way(branches, regions, secrecies=secrecies, know=[office.firms_of(branches[0])])


WAYS = (large_secrets, many_secrets, much_known, both_ways)


class Room:
    """How many nodes are left of a user's view."""

    def __init__(self, nodes):
        self.nodes = nodes

    def take(self, sentences, most, cost):
        """Those of the sentences that there is room for, so many at most."""
        taken = []
        for sentence in sentences:
            if len(taken) < most and cost(sentence.nodes) <= self.nodes:
                self.nodes -= cost(sentence.nodes)
                taken.append(sentence)
        return taken


class User:
    """A user of the policy, and what he asks."""

    def __init__(self, office, seed, number, nodes):
        self.office, self.seed, self.number = office, seed, number
        self.name, self.method = f"u{number}", METHODS[number % len(METHODS)]
        chance = Chance(seed, 1 + number)
        turn, way = divmod(number // len(METHODS), len(WAYS))
        self.budget = BUDGETS[turn % len(BUDGETS)]
        make = WAYS[way]
        if make is both_ways and self.method == "lying":
            make = many_secrets  # a liar with a secrecy is never admitted
        self.way = make(office, chance, nodes)
        self.give(chance, Room(nodes), nodes)

    def give(self, chance, room, nodes):
        """Gives him secrecies, secrets and knowledge as long as there is room."""
        self.secrecies = room.take(self.way.secrecies, schemas.SECRECIES, lambda nodes: 2 * nodes + 3)
        self.secrets = room.take(self.way.secrets, schemas.SECRETS, lambda nodes: nodes + 1)
        if not self.secrecies and not self.secrets:
            secret = atom("made_loss", self.office.members[self.way.branches[0]][0])
            self.secrets = room.take([secret], 1, lambda nodes: nodes + 1)
        firms = [firm for branch in self.way.branches for firm in self.office.members[branch]]
        firms = dict.fromkeys(firms + chance.several(self.office.firms, schemas.KNOWN))
        register = [joined("and", *self.office.public(firm)) for firm in firms]
        self.know = room.take(self.way.know + register, schemas.KNOWN, lambda nodes: nodes)
        self.view = nodes - room.nodes

    def toml(self):
        lines = ["[[users]]", f'name = "{self.name}"', f'method = "{self.method}"']
        lines += [] if self.budget is None else [f"budget = {self.budget}"]
        lines.append(f'token = "{sha256(phrase(self.name).encode()).hexdigest()}"')
        for key in ("know", "secrecies", "secrets"):
            sentences = getattr(self, key)
            if sentences:
                lines += [f"{key} = [", *(f'    "{sentence.text}",' for sentence in sentences), "]"]
        return lines

    def asks(self, count):
        """So many questions. All that a history holds fit into the view, with a `no` to each."""
        chance, room = Chance(self.seed, 500 + self.number), schemas.VIEW_NODES - self.view
        for number in range(count):
            question = self.question(chance)
            others = schemas.ANSWERS - number - 1
            if room - question.nodes - 1 < TOLD_NODES * others:
                question = self.office.trade(chance)
            room -= question.nodes + 1
            yield question

    def question(self, chance):
        drawn = chance.below(100)
        for below, make in QUESTIONS:
            if drawn < below:
                return make(self, chance)
        return self.quantified(chance)

    def of_trade(self, chance):
        return self.office.trade(chance)

    def of_guarded(self, chance):
        """About what is kept from him."""
        if self.way.regions and chance.holds(50):
            return atom("exports", chance.one_of(self.office.firms), chance.one_of(self.way.regions))
        branch = chance.one_of(self.way.branches)
        firm = chance.one_of(self.office.members[branch])
        return atom("made_loss", firm) if chance.holds(70) else atom("in_branch", firm, branch)

    def of_confidence(self, chance):
        return atom(chance.one_of(("made_loss", "subsidised", "surveyed")), chance.one_of(self.office.firms))

    def of_register(self, chance):
        firm = chance.one_of(self.office.firms)
        other = firm if chance.holds(50) else chance.one_of(self.office.firms)
        return chance.one_of((atom("in_branch", firm, self.office.branch[other]),
                              atom("in_region", firm, self.office.region[other])))

    def either(self, chance):
        return joined("or", *(atom("made_loss", firm) for firm in chance.several(self.office.firms, 2)))

    def both(self, chance):
        return joined("and", self.of_guarded(chance), self.of_confidence(chance))

    def opposite(self, chance):
        return negated(self.of_confidence(chance))

    def quantified(self, chance):
        """About all firms, with 1 to 19 nodes for each."""
        region = chance.one_of(self.office.names["region"])
        branches = branches_with_firms(self.office, chance, 1 + chance.below(WIDEST))
        return chance.one_of((
            self.office.export_to(region),
            self.office.rule(atom("exports", "x", region), atom("surveyed", "x")),
            self.office.loss_in(branches),
        ))


# Of 100 questions so many, counted up, are of each kind; the last one has a quantifier.
QUESTIONS = ((64, User.of_trade), (76, User.of_guarded), (84, User.of_confidence), (88, User.of_register),
             (94, User.either), (97, User.both), (99, User.opposite))


def phrase(name):
    """The pass phrase of a user."""
    return f"office {name}"


def policy_lines(office, users):
    yield from ("# A statistics office, made up by tests/office.py.", "version = 2", "", "[domains]")
    for domain in DOMAINS:
        yield f"{domain} = [{', '.join(map(quoted, office.names[domain]))}]"
    yield from ("", "[relations]")
    for relation, columns in RELATIONS.items():
        yield f"{relation} = [{', '.join(map(quoted, columns))}]"
    for user in users:
        yield ""
        yield from user.toml()


def quoted(name):
    return f'"{name}"'


def write(path, lines):
    with open(path, "w", encoding="ascii", newline="\n") as file:
        file.writelines(f"{line}\n" for line in lines)


def make(directory, given):
    """Writes the office into a directory."""
    directory.mkdir(parents=True, exist_ok=True)
    (directory / "asks").mkdir(exist_ok=True)
    office = Office(given.seed, given.constants)
    write(directory / "facts", office.facts(given.facts))
    users = [User(office, given.seed, number, given.nodes) for number in range(given.users)]
    write(directory / "policy", policy_lines(office, users))
    for user in users:
        write(directory / "asks" / user.name, (question.text for question in user.asks(given.asks)))
    return users


def within(least, most):
    """A reader of a number of these bounds."""
    def read(word):
        if not word.isascii() or not word.isdigit() or not least <= int(word) <= most:
            raise argparse.ArgumentTypeError(f"a number from {least} to {most}, not {word!r}")
        return int(word)
    return read


def add_sizes(words):
    """The words that say how large an office is."""
    words.add_argument("--seed", type=within(0, 2**32 - 1), default=1, help="from which it is made up")
    words.add_argument("--users", type=within(1, schemas.USERS), default=schemas.USERS)
    words.add_argument("--facts", type=within(1, schemas.FACTS), default=schemas.FACTS)
    words.add_argument("--asks", type=within(0, schemas.ANSWERS), default=schemas.ANSWERS, help="of each user")
    words.add_argument("--nodes", type=within(2, schemas.FIRST_VIEW_NODES), default=schemas.FIRST_VIEW_NODES,
                       help="at most, in all that a user knows and in his secrets")
    words.add_argument("--constants", type=within(4, schemas.CONSTANTS), default=schemas.CONSTANTS,
                       help="of each domain")


def main():
    words = argparse.ArgumentParser(description=__doc__.partition(":")[0])
    words.add_argument("directory", type=Path)
    add_sizes(words)
    given = words.parse_args()
    make(given.directory, given)
    return 0


if __name__ == "__main__":
    sys.exit(main())
