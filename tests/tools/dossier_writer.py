"""A writer of dossiers for tests: a policy's user is asked, and his history is written with what shows each reply.

It follows docs/DEFINITIONS.md word for word, as slowly as that is said, and shares nothing with the tools but the
reader of sentences. So a dossier of it tells whether the tools take the definitions as they stand.

A literal is a pair of a variable and its sign. A ground formula is a list that begins with its sort.
"""

import tomllib
from typing import NamedTuple

import told  # noqa: F401 makes the tools' modules found

from cqe_tools.schemas import Schema
from cqe_tools.sentences import sentence_of

ADMISSION_BUDGET = 4_000_000


def ground(schema, sentence, constants=()):
    """A sentence with its quantifiers written out, and its equations decided."""
    def bound(term):
        return constants[term] if isinstance(term, int) else term

    if sentence.sort in ("true", "false"):
        return [sentence.sort]
    if sentence.sort == "atom":
        return ["fact", (sentence.name, *map(bound, sentence.parts))]
    if sentence.sort in ("=", "!="):
        same = bound(sentence.parts[0]) == bound(sentence.parts[1])
        return ["true"] if same == (sentence.sort == "=") else ["false"]
    if sentence.sort in ("forall", "exists"):
        return ["and" if sentence.sort == "forall" else "or"] + [
            ground(schema, sentence.parts[0], constants + (constant,)) for constant in schema.domains[sentence.name]]
    return [sentence.sort] + [ground(schema, part, constants) for part in sentence.parts]


def holds(world, formula):
    """Whether a ground formula is true in a world."""
    sort, *parts = formula
    if sort == "fact":
        return parts[0] in world
    values = [holds(world, part) for part in parts]
    return {"true": lambda: True, "false": lambda: False, "not": lambda: not values[0], "and": lambda: all(values),
            "or": lambda: any(values), "->": lambda: not values[0] or values[1],
            "<->": lambda: values[0] == values[1]}[sort]()


def opposite(literal):
    return (literal[0], not literal[1])


def once(literals):
    """Each literal once, where it stands first."""
    return [literal for place, literal in enumerate(literals) if literal not in literals[:place]]


class Form:
    """The clause form of a list of ground formulas, each stated or negated."""

    def __init__(self, signed):
        self.clauses, self.numbers, self.free = [[(0, True)]], {}, 1
        for formula, stated in signed:
            literal = self.walk(formula)
            self.clauses.append([literal if stated else opposite(literal)])

    def take(self):
        self.free += 1
        return self.free - 1

    def walk(self, formula):
        """The literal of a formula, behind the clauses of its parts and its own."""
        sort, *parts = formula
        if sort in ("true", "false"):
            return (0, sort == "true")
        if sort == "fact":
            if parts[0] not in self.numbers:
                self.numbers[parts[0]] = self.take()
            return (self.numbers[parts[0]], True)
        literals = [self.walk(part) for part in parts]
        if sort == "not":
            return opposite(literals[0])
        node = self.take()
        self.clauses += [once(clause) for clause in self.of_node((node, True), sort, literals)]
        return (node, True)

    def of_node(self, v, sort, literals):
        not_v = opposite(v)
        if sort == "and":
            return [[not_v, a] for a in literals] + [[v] + [opposite(a) for a in literals]]
        if sort == "->":
            literals = [opposite(literals[0]), literals[1]]
        if sort in ("or", "->"):
            return [[v, opposite(a)] for a in literals] + [[not_v] + literals]
        a, b = literals
        return [[not_v, opposite(a), b], [not_v, a, opposite(b)], [v, a, b], [v, opposite(a), opposite(b)]]


class Machine:
    """The search machine over clauses, run to its end."""

    def __init__(self, clauses, variables):
        self.clauses, self.variables = [list(clause) for clause in clauses], variables
        self.trail = []  # a literal, and the number of the clause that is its cause or None
        self.lines, self.cost = [], 0
        self.signs = {}
        while not self.step():
            pass

    def step(self):
        """Whether the machine ends with this step."""
        unit = None
        for number, clause in enumerate(self.clauses):
            free = [a for a in clause if a[0] not in self.signs]
            if any(self.signs.get(a[0]) == a[1] for a in clause):
                continue
            if not free:
                return self.conflict(number)
            if len(free) == 1 and unit is None:
                unit = (free[0], number)
        self.cost += 1
        if unit is not None:
            self.push(*unit)
            return False
        unassigned = [variable for variable in range(self.variables) if variable not in self.signs]
        if unassigned:
            self.push((unassigned[0], False), None)
        return not unassigned

    def push(self, literal, cause):
        self.trail.append((literal, cause))
        self.signs[literal[0]] = literal[1]

    def levels(self):
        """The level of each variable on the trail."""
        level, levels = 0, {}
        for literal, cause in self.trail:
            level += cause is None
            levels[literal[0]] = level
        return levels

    def conflict(self, number):
        levels, causes = self.levels(), {literal: cause for literal, cause in self.trail}
        places = {literal: place for place, (literal, _) in enumerate(self.trail)}
        current, clause, chain = max(levels.values(), default=0), self.clauses[number], [number]
        while len([a for a in clause if levels[a[0]] == current]) > (1 if current else 0):
            latest = max(clause, key=lambda a: places[opposite(a)])
            cause = causes[opposite(latest)]
            clause = once([a for a in clause + self.clauses[cause] if a[0] != latest[0]])
            chain.append(cause)
        self.cost += 1 + len(chain) - 1 + len(clause)
        self.clauses.append(clause)
        self.lines.append((clause, chain))
        if current:
            self.go_back(clause, levels, current)
        return not current

    def go_back(self, clause, levels, current):
        kept = max([levels[a[0]] for a in clause if levels[a[0]] != current], default=0)
        self.trail = [(literal, cause) for literal, cause in self.trail if levels[literal[0]] <= kept]
        self.signs = dict(literal for literal, _ in self.trail)
        left, = [a for a in clause if levels[a[0]] == current]
        self.push(left, len(self.clauses) - 1)


def rule(method, truth, implied, yes_harms, no_harms):
    """The mark by the rule's table, its lines in their order, where no probe is spent."""
    table = [
        ("lying", truth and yes_harms, "no"), ("lying", not truth and no_harms, "yes"),
        ("refusal", implied[0], "yes"), ("refusal", implied[1], "no"),
        ("refusal", yes_harms or no_harms, "refused"),
        ("combined", yes_harms and no_harms, "refused"),
        ("combined", truth and yes_harms, "no"), ("combined", not truth and no_harms, "yes"),
    ]
    return next((mark for whose, applies, mark in table if whose == method and applies), "yes" if truth else "no")


def is_right(clauses, lines):
    """Whether a refutation of clauses is right; each line is a clause and a chain."""
    known = list(clauses)
    for clause, chain in lines:
        if not chain or any(number >= len(known) for number in chain):
            return False
        result = known[chain[0]]
        for number in chain[1:]:
            clash = once([a for a in result if opposite(a) in known[number]])
            if len(clash) != 1 or opposite(clash[0]) in result or clash[0] in known[number]:
                return False
            result = once([a for a in result + known[number] if a[0] != clash[0][0]])
        if set(result) != set(clause):
            return False
        known.append(clause)
    return bool(lines) and lines[-1][0] == []


class Block(NamedTuple):
    """What shows a probe's outcome."""

    follows: bool
    signed: list  # the ground formulas of the probe, each stated or negated
    form: Form
    machine: Machine
    lines: list  # of the dossier
    world: set | None = None  # of an open one


class Writer:
    """The dossier of a user of a policy, while he is asked."""

    def __init__(self, policy, facts, name):
        tree = tomllib.loads(policy.decode())
        self.schema = Schema(*(sorted(tree[key].items(), key=lambda pair: pair[0].encode())
                               for key in ("domains", "relations")))
        self.world = {self.fact(line) for line in facts.decode().splitlines() if line.strip()[:1] not in ("", "#")}
        user, = [user for user in tree["users"] if user["name"] == name]
        self.name, self.method, self.budget = name, user["method"], user.get("budget", 1_000_000)
        self.log = [(self.read(text), True) for text in user.get("know", [])]
        both = [part for text in map(self.read, user.get("secrecies", [])) for part in (text, ["not", text])]
        self.secrets = both + [self.read(text) for text in user.get("secrets", [])]
        self.items, self.lines = 0, [""]
        self.blocks = {}  # by the number of the first line
        self.standing = "open" if self.admit() else "closed"

    def fact(self, line):
        relation, _, rest = line.strip().rstrip(")").partition("(")
        return (relation.strip(), *(part.strip() for part in rest.split(",") if part.strip()))

    def read(self, text):
        return ground(self.schema, sentence_of(self.schema, text.encode()))

    def guarded(self, secrets):
        if self.method != "lying":
            return secrets
        whole = secrets[0]
        for secret in secrets[1:]:
            whole = ["or", whole, secret]
        return [whole]

    def probe(self, premise, goal, budget):
        """The block that shows whether the log and the premise entail the goal; None where the probe is spent."""
        formula, stated = goal
        signed = self.log + premise + [(formula, not stated)]
        form = Form(signed)
        found = Machine(form.clauses, form.free)
        if found.cost > budget:
            return None
        if found.lines and not found.lines[-1][0]:
            return Block(True, signed, form, found, self.refuted(found.lines))
        world = {fact for fact, number in form.numbers.items() if found.signs[number]}
        return Block(False, signed, form, found, ["open " + self.printed(world)], world)

    def refuted(self, lines):
        def literal(a):
            return f" {'+' if a[1] else '-'}{a[0]}"

        return ["follows"] + [f"line{''.join(map(literal, clause))} : {' '.join(map(str, chain))}"
                              for clause, chain in lines] + ["end"]

    def printed(self, world):
        """The facts of a world in their order."""
        def place(fact):
            relation, *constants = fact
            columns = self.schema.relations[relation]
            return list(self.schema.relations).index(relation), [
                self.schema.domains[domain].index(constant) for domain, constant in zip(columns, constants)]

        return " ".join(f"{relation}({', '.join(rest)})" for relation, *rest in sorted(world, key=place)) or "-"

    def admit(self):
        """Whether the user is admitted; then the blocks that show it are written."""
        blocks = [self.probe([], (goal, True), ADMISSION_BUDGET) for goal in self.guarded(self.secrets)]
        if any(found is None or found.follows for found in blocks):
            return False
        if self.method == "refusal" and not all(holds(self.world, known) for known, _ in self.log):
            return False
        self.put("admission", blocks)
        return True

    def ask(self, text):
        """The mark of a query, which the dossier then has."""
        query = self.read(text)
        harms = [self.probe([(query, says)], (goal, True), self.budget)
                 for says in (True, False) for goal in self.guarded(self.secrets)]
        first = [self.probe([], (query, says), self.budget) for says in (True, False) if self.method == "refusal"]
        blocks, half = first + harms, len(harms) // 2
        if None in blocks:
            mark, blocks = "undecided", []
        else:
            implied = [block.follows for block in first] or [False, False]
            yes, no = (any(block.follows for block in part) for part in (harms[:half], harms[half:]))
            mark = rule(self.method, holds(self.world, query), implied, yes, no)
        self.put(f"ask {mark} {text}", blocks)
        self.items += 1
        if mark in ("yes", "no"):
            self.log.append((query, mark == "yes"))
        return mark

    def protect(self, text):
        """Whether one more secret is added, which the dossier then has."""
        secret = self.read(text)
        found = self.probe([], (self.guarded(self.secrets + [secret])[-1], True), ADMISSION_BUDGET)
        if found is None or found.follows:
            return "unsafe"
        self.put(f"protect {text}", [found])
        self.items += 1
        self.secrets.append(secret)
        return "protected"

    def put(self, line, blocks):
        """A line and the blocks below it."""
        self.lines.append(line)
        for block in blocks:
            self.blocks[len(self.lines) + 1] = block
            self.lines += block.lines

    def text(self):
        """The dossier."""
        lines = [f"dossier 1 {self.name} {self.method} {self.standing}", *self.lines[1:]]
        return "".join(line + "\n" for line in lines + [f"done {self.items}"] * (self.standing == "open"))
