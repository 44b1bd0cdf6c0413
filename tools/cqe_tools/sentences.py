"""Sentences: what a text says, how many nodes it has, and the first place at which it is none.

The reader goes from left to right and stops at the first token that can't stand where it is.
"""

import re
from dataclasses import dataclass
from typing import NamedTuple

from .schemas import KEYWORDS

BAD_CHARACTER, UNEXPECTED, UNKNOWN_NAME, WRONG_DOMAIN, TOO_DEEP, WRONG_COLUMNS = range(1, 7)
KINDS = {1: "BadCharacter", 2: "Unexpected", 3: "UnknownName", 4: "WrongDomain", 5: "TooDeep", 6: "WrongColumns"}

QUANTIFIERS = 8
CONSTRUCTS = 64
TOKEN = re.compile(rb"<->|->|!=|[A-Za-z][A-Za-z0-9_]*|[(),:.=]")
BLANKS = re.compile(rb"[ \t]*")
CONNECTIVES = "'and', 'or', '->' or '<->'"


@dataclass(frozen=True)
class Token:
    """A piece of a text. The end of the text is an empty one; a byte that begins no token is of the sort 'bad'."""

    sort: str  # name, keyword, sign, end, bad
    text: str
    start: int
    end: int


class Sentence(NamedTuple):
    """What a text says. A term is the name of a constant, or the number of a variable: that of its quantifier among
    those around it, the outermost being 0."""

    sort: str  # true, false, atom, =, !=, not, and, or, ->, <->, forall, exists
    parts: tuple  # the sentences in it; of an atom, = and != the terms
    name: str  # the relation of an atom, the domain of a quantifier
    nodes: int


def leaf(sort, terms=(), name=""):
    return Sentence(sort, tuple(terms), name, 1)


def joined(sort, *parts):
    """A sentence made of others by `not` or a connective."""
    return Sentence(sort, parts, "", 1 + sum(part.nodes for part in parts))


class Refused(Exception):
    """Why a text is no sentence: the kind and place of the formats, the token there, and what it should be."""

    def __init__(self, kind, token, wanted, detail=""):
        super().__init__(kind, token.start)
        self.kind = kind
        self.place = token.start
        self.token = token
        self.wanted = wanted
        self.detail = detail  # what an unknown name should be; the domains or columns that don't fit


def token_at(text, start):
    """The next token from here on, behind blanks."""
    start = BLANKS.match(text, start).end()
    if start == len(text):
        return Token("end", "", start, start)
    match = TOKEN.match(text, start)
    if not match:
        return Token("bad", "", start, start + length_of_character(text, start))
    word = match.group().decode("ascii")
    sort = "sign" if not word[0].isalpha() else "keyword" if word in KEYWORDS else "name"
    return Token(sort, word, start, match.end())


def length_of_character(text, start):
    """How many bytes the character takes that begins here; 1 where it is no UTF-8."""
    for length in (1, 2, 3, 4):
        try:
            text[start:start + length].decode("utf-8")
            return length
        except UnicodeDecodeError:
            continue
    return 1


class Reader:
    """A text that is read as a sentence. Each part answers what it says."""

    def __init__(self, schema, text):
        self.schema = schema
        self.text = text
        self.at = 0
        self.variables = []  # pairs of a name and its domain, the innermost last
        self.open = 0

    def peek(self):
        return token_at(self.text, self.at)

    def peek_second(self, token):
        return token_at(self.text, token.end)

    def take(self, token):
        self.at = token.end

    def unexpected(self, token, wanted):
        kind = BAD_CHARACTER if token.sort == "bad" else UNEXPECTED
        return Refused(kind, token, wanted)

    def sign(self, text, wanted):
        token = self.peek()
        if token.text != text:
            raise self.unexpected(token, wanted)
        self.take(token)

    def enclose(self, token, part):
        """What the part answers within one more enclosing construct, which this token opens."""
        if self.open == CONSTRUCTS:
            raise Refused(TOO_DEEP, token, "", "constructs")
        self.take(token)
        self.open += 1
        found = part()
        self.open -= 1
        return found

    def whole(self):
        found = self.sentence()
        token = self.peek()
        if token.sort != "end":
            raise self.unexpected(token, f"{CONNECTIVES}, or the end")
        return found

    def sentence(self):
        found = self.implied()
        token = self.peek()
        if token.text == "<->":
            self.take(token)
            found = joined("<->", found, self.implied())
        return found

    def implied(self):
        found = self.either()
        token = self.peek()
        if token.text == "->":
            found = joined("->", found, self.enclose(token, self.implied))
        return found

    def either(self):
        return self.chain("or", self.both)

    def both(self):
        return self.chain("and", self.unary)

    def chain(self, word, part):
        found = part()
        while (token := self.peek()).text == word:
            self.take(token)
            found = joined(word, found, part())
        return found

    def unary(self):
        token = self.peek()
        if token.text == "not":
            return joined("not", self.enclose(token, self.unary))
        if token.text in ("forall", "exists"):
            return self.quantified(token)
        return self.primary(token)

    def quantified(self, token):
        if len(self.variables) == QUANTIFIERS:
            raise Refused(TOO_DEEP, token, "", "quantifiers")
        found = self.enclose(token, lambda: self.bound(token.text))
        behind = self.peek()
        if behind.sort != "end" and behind.text != ")":
            raise self.unexpected(behind, "')' or the end behind a quantified sentence")
        return found

    def bound(self, quantifier):
        """A quantifier's variable, domain and body; what all of it says."""
        form = f"'{quantifier} x: domain . sentence'"
        variable = self.peek()
        if variable.sort != "name":
            raise self.unexpected(variable, f"a variable, as in {form}")
        self.take(variable)
        self.sign(":", f"':' behind the variable, as in {form}")
        domain = self.peek()
        if domain.sort != "name":
            raise self.unexpected(domain, f"the name of a domain, as in {form}")
        if domain.text not in self.schema.domains:
            raise Refused(UNKNOWN_NAME, domain, "", "domain")
        self.take(domain)
        self.sign(".", f"'.' behind the domain, as in {form}")
        self.variables.append((variable.text, domain.text))
        body = self.sentence()
        self.variables.pop()
        return Sentence(quantifier, (body,), domain.text, 1 + self.schema.size(domain.text) * body.nodes)

    def primary(self, token):
        if token.text in ("true", "false"):
            self.take(token)
            return leaf(token.text)
        if token.text == "(":
            return self.enclose(token, self.bracketed)
        if token.sort != "name":
            raise self.unexpected(token, "a sentence, as 'relation(constant)', 'not ..', 'forall ..' or '(..)'")
        if self.peek_second(token).text == "(":
            return self.atom(token)
        return self.equation(token)

    def bracketed(self):
        found = self.sentence()
        self.sign(")", f"{CONNECTIVES}, or ')'")
        return found

    def equation(self, token):
        term, domain = self.term_and_domain(token)
        self.take(token)
        sign = self.peek()
        if sign.text not in ("=", "!="):
            raise self.unexpected(sign, "'=' or '!=' behind a constant or a variable")
        self.take(sign)
        return leaf(sign.text, (term, self.term(domain, "a constant or a variable")))

    def term_and_domain(self, token):
        for number in reversed(range(len(self.variables))):
            name, domain = self.variables[number]
            if name == token.text:
                return number, domain
        if token.text in self.schema.domain_of:
            return token.text, self.schema.domain_of[token.text]
        raise Refused(UNKNOWN_NAME, token, "", "term")

    def term(self, domain, wanted):
        token = self.peek()
        if token.sort != "name":
            raise self.unexpected(token, wanted)
        term, found = self.term_and_domain(token)
        if found != domain:
            raise Refused(WRONG_DOMAIN, token, "", (found, domain))
        self.take(token)
        return term

    def atom(self, relation):
        if relation.text not in self.schema.relations:
            raise Refused(UNKNOWN_NAME, relation, "", "relation")
        columns = self.schema.relations[relation.text]
        self.take(relation)
        self.take(self.peek())  # the parenthesis
        terms = [self.column(relation.text, columns, number, domain) for number, domain in enumerate(columns)]
        self.closing(relation.text, columns)
        return leaf("atom", terms, relation.text)

    def column(self, relation, columns, number, domain):
        token = self.peek()
        if number > 0:
            if token.text == ")":
                raise Refused(WRONG_COLUMNS, token, "", (relation, len(columns), number))
            self.sign(",", "',' and the next column")
        elif token.text == ")":
            raise Refused(WRONG_COLUMNS, token, "", (relation, len(columns), 0))
        return self.term(domain, "a constant or a variable")

    def closing(self, relation, columns):
        token = self.peek()
        surplus = token.text == "," if columns else token.sort == "name"
        if surplus:
            raise Refused(WRONG_COLUMNS, token, "", (relation, len(columns), len(columns) + 1))
        self.sign(")", "')' behind the last column")


@dataclass(frozen=True)
class Opening:
    """One of the quantifiers `exists` at the beginning of a text."""

    variable: str
    domain: str
    start: int
    end: int  # behind its dot


def behind_parentheses(text, start):
    """The next token from here on that is no opening parenthesis."""
    token = token_at(text, start)
    while token.text == "(":
        token = token_at(text, token.end)
    return token


def openings(text):
    """The quantifiers `exists` at the beginning of a text, behind any parentheses, as far as they have their form."""
    result, at = [], 0
    while True:
        parts = [behind_parentheses(text, at)]
        while len(parts) < 5:
            parts.append(token_at(text, parts[-1].end))
        if [parts[0].text, parts[2].text, parts[4].text] != ["exists", ":", "."]:
            return result
        at = parts[4].end
        result.append(Opening(parts[1].text, parts[3].text, parts[0].start, at))


def nodes_of(schema, text):
    """The nodes of a sentence; Refused where the text is none."""
    return sentence_of(schema, text).nodes


def sentence_of(schema, text):
    """What a text says; Refused where it is no sentence."""
    return Reader(schema, text).whole()


def refusal_of(schema, text):
    """Why a text is no sentence; None where it is one."""
    try:
        nodes_of(schema, text)
    except Refused as refused:
        return refused
    return None
