"""Names, schemas and their limits."""

import difflib
import re

KEYWORDS = ("not", "and", "or", "true", "false", "forall", "exists")
CANONICAL_VARIABLES = tuple(f"v{number}" for number in range(1, 9))
NAME = re.compile(r"[A-Za-z][A-Za-z0-9_]*\Z")

NAME_BYTES = 32
DOMAINS = 64
CONSTANTS = 1024
RELATIONS = 64
COLUMNS = 6
FACTS = 100_000
USERS = 256
SECRETS = 16
SECRECIES = 8
KNOWN = 256
TEXT_BYTES = 4096
SENTENCE_NODES = 20_000
SECRECY_NODES = SENTENCE_NODES - 1  # its negation has one more
FIRST_VIEW_NODES = 40_000
VIEW_NODES = 60_000
ANSWERS = 4096
ANSWERED_BYTES = 1_048_576
BUDGET = 4_000_000
DEFAULT_BUDGET = 1_000_000
SCRIPT_LINES = 100_000
INSTANCES = 256


def fault_of_name(name):
    """Why a name isn't one of a domain, a relation, a constant or a user; None where it is one."""
    if name == "":
        return "it is empty"
    if not name.isascii():
        bad = next(character for character in name if not character.isascii())
        return f"'{bad}' (U+{ord(bad):04X}) isn't an ASCII letter: write it without umlauts and accents, as ae for ä"
    if not NAME.match(name):
        if not name[0].isalpha():
            return f"it begins with '{name[0]}', and a name begins with a letter"
        bad = next(character for character in name if not (character.isalnum() or character == "_"))
        return f"it has {'a blank' if bad in ' ' else repr(bad)}, and a name has letters, digits and _ alone"
    if len(name) > NAME_BYTES:
        return f"it has {len(name)} bytes, and a name has at most {NAME_BYTES}"
    if name in KEYWORDS:
        return "it is a keyword of the sentences"
    if name in CANONICAL_VARIABLES:
        return "v1 to v8 are the variables of printed sentences"
    return None


def similar(name, names):
    """The name that was probably meant, or None."""
    names = list(names)
    for candidate in names:
        if candidate.lower() == name.lower():
            return candidate
    close = difflib.get_close_matches(name, names, 1, 0.6)
    return close[0] if close else None


class Schema:
    """Domains with their constants and relations with their columns, both as lists in order."""

    def __init__(self, domains=(), relations=()):
        self.domains = {}
        self.relations = {}
        self.domain_of = {}
        for name, constants in domains:
            self.add_domain(name, constants)
        for name, columns in relations:
            self.relations[name] = list(columns)

    def add_domain(self, name, constants):
        """One more domain; of a constant that stands twice the first place counts."""
        self.domains[name] = list(constants)
        for constant in constants:
            self.domain_of.setdefault(constant, name)

    def size(self, domain):
        return len(self.domains[domain])

    def names(self):
        """All names: domains, relations, constants."""
        return [*self.domains, *self.relations, *self.domain_of]


def declared(domains, relations):
    """All names that these declarations make, in order, each with its path of keys."""
    for name, constants in domains:
        yield name, ("domains", name)
        for index, constant in enumerate(constants):
            yield constant, ("domains", name, index)
    for name, _ in relations:
        yield name, ("relations", name)


def refusal(domains, relations):
    """The first number that applies to declarations, with a sentence, its path and an earlier one; else None."""
    return (name_twice(domains, relations) or unknown_domain(domains, relations) or too_many(domains, relations)
            or empty_domain(domains) or bad_name(domains, relations))


def name_twice(domains, relations):
    seen = {}
    for name, path in declared(domains, relations):
        if name in seen:
            return 1, f"the name {name!r} stands twice", path, seen[name]
        seen[name] = path
    return None


def unknown_domain(domains, relations):
    known = {name for name, _ in domains}
    for relation, columns in relations:
        for index, column in enumerate(columns):
            if column not in known:
                meant = similar(column, known)
                hint = f"; there is a domain {meant!r}" if meant else ""
                why = (f"column {index + 1} of the relation {relation!r} names the domain {column!r}, and there is "
                       f"none{hint}")
                return 2, why, ("relations", relation, index), None
    return None


def too_many(domains, relations):
    if len(domains) > DOMAINS:
        return 3, f"there are {len(domains)} domains, and at most {DOMAINS} are allowed", ("domains",), None
    if len(relations) > RELATIONS:
        return 3, f"there are {len(relations)} relations, and at most {RELATIONS} are allowed", ("relations",), None
    for name, constants in domains:
        if len(constants) > CONSTANTS:
            why = f"the domain {name!r} has {len(constants)} constants, and at most {CONSTANTS:,} are allowed"
            return 3, why, ("domains", name), None
    for name, columns in relations:
        if len(columns) > COLUMNS:
            why = f"the relation {name!r} has {len(columns)} columns, and at most {COLUMNS} are allowed"
            return 3, why, ("relations", name), None
    return None


def empty_domain(domains):
    for name, constants in domains:
        if not constants:
            return 4, f"the domain {name!r} has no constant", ("domains", name), None
    return None


def bad_name(domains, relations):
    for name, path in declared(domains, relations):
        fault = fault_of_name(name)
        if fault:
            return 5, f"the name {name!r} isn't allowed: {fault}", path, None
    return None


SCHEMA_ADVICE = {
    1: "give each domain, relation and constant a name of its own: one name can't be two of them, so a person called "
       "ward and a domain called ward need two names",
    2: "declare the domain, or write the name of one that is declared",
    3: "split the domain, or leave out what no question and no secret needs",
    4: "give the domain at least one constant, or leave it out",
    5: "a name is a letter, then letters, digits and _, in ASCII, of at most 32 bytes, no keyword and none of v1 to v8",
}
