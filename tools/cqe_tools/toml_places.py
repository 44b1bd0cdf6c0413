"""A TOML document as a tree in which each value and key knows its place in the source.

It reads documents that are TOML; of others it answers None, and `tomllib` says what is wrong (see policies.py).
"""

import re
from dataclasses import dataclass, field

BARE = re.compile(r"[A-Za-z0-9_-]+")
SPACE = re.compile(r"[ \t]*")
EMPTY = re.compile(r"(?:[ \t\r\n]|#[^\n]*)*")
SCALAR = re.compile(r"[^\s,\]}#]+(?: \d\d:[^\s,\]}#]+)?")
INTEGER = re.compile(r"[+-]?(?:0|[1-9](?:_?\d)*)\Z|0x[0-9A-Fa-f](?:_?[0-9A-Fa-f])*\Z|"
                     r"0o[0-7](?:_?[0-7])*\Z|0b[01](?:_?[01])*\Z")
ESCAPES = {"b": "\b", "t": "\t", "n": "\n", "f": "\f", "r": "\r", "e": "\x1b", '"': '"', "\\": "\\"}
LENGTHS = {"x": 2, "u": 4, "U": 8}


class NotRead(Exception):
    """The source isn't read here."""


@dataclass
class Value:
    """A value of the kinds string, integer, boolean, array, table or other, from one place of the source to another."""

    kind: str
    value: object
    start: int
    end: int
    keys: dict = field(default_factory=dict)  # of a table: the place of each key
    places: list = field(default_factory=list)  # of a string: the place of each character, and of its end

    def at(self, *path):
        """The value at a path of keys and indices; None where there is none."""
        here = self
        for step in path:
            inner = here.value if here.kind in ("table", "array") else None
            if isinstance(inner, dict) and isinstance(step, str) and step in inner:
                here = inner[step]
            elif isinstance(inner, list) and isinstance(step, int) and step < len(inner):
                here = inner[step]
            else:
                return None
        return here


class Scanner:
    """A source that is read from left to right."""

    def __init__(self, source):
        self.source = source
        self.at = 0

    def skip(self, pattern):
        self.at = pattern.match(self.source, self.at).end()

    def next_is(self, text):
        return self.source.startswith(text, self.at)

    def wanted(self, text):
        if not self.next_is(text):
            raise NotRead(self.at)
        self.at += len(text)

    def document(self):
        root = table(0)
        here = root
        while True:
            self.skip(EMPTY)
            if self.at == len(self.source):
                return root
            if self.next_is("["):
                here = self.header(root)
            else:
                self.pair(here)

    def header(self, root):
        """The table that a line in brackets begins."""
        start, many = self.at, self.next_is("[[")
        self.wanted("[[" if many else "[")
        path = self.path()
        self.wanted("]]" if many else "]")
        above = descend(root, path[:-1])
        name, place = path[-1]
        new = table(start, self.at)
        if many:
            listed = above.value.setdefault(name, Value("array", [], start, self.at))
            if listed.kind != "array":
                raise NotRead(start)
            listed.value.append(new)
        else:
            new = above.value.setdefault(name, new)
            if new.kind == "array" and new.value:
                new = new.value[-1]
        above.keys.setdefault(name, place)
        if new.kind != "table":
            raise NotRead(start)
        return new

    def path(self):
        """A key with its dots: pairs of a name and its place."""
        parts = []
        while True:
            self.skip(SPACE)
            start = self.at
            if self.next_is('"') or self.next_is("'"):
                name = self.string().value
            elif match := BARE.match(self.source, self.at):
                name, self.at = match.group(), match.end()
            else:
                raise NotRead(self.at)
            parts.append((name, (start, self.at)))
            self.skip(SPACE)
            if not self.next_is("."):
                return parts
            self.at += 1

    def pair(self, here):
        path = self.path()
        self.wanted("=")
        self.skip(SPACE)
        above = descend(here, path[:-1])
        name, place = path[-1]
        if name in above.value:
            raise NotRead(place[0])
        above.keys[name] = place
        above.value[name] = self.anything()

    def anything(self):
        if self.next_is('"') or self.next_is("'"):
            return self.string()
        if self.next_is("["):
            return self.array()
        if self.next_is("{"):
            return self.inline()
        match = SCALAR.match(self.source, self.at)
        if not match:
            raise NotRead(self.at)
        start, self.at, text = self.at, match.end(), match.group()
        if text in ("true", "false"):
            return Value("boolean", text == "true", start, self.at)
        if INTEGER.match(text):
            return Value("integer", int(text, 10 if text[:2] not in ("0x", "0o", "0b") else 0), start, self.at)
        return Value("other", text, start, self.at)

    def array(self):
        start, items = self.at, []
        self.wanted("[")
        while True:
            self.skip(EMPTY)
            if self.next_is("]"):
                break
            items.append(self.anything())
            self.skip(EMPTY)
            if not self.next_is("]"):
                self.wanted(",")
        self.at += 1
        return Value("array", items, start, self.at)

    def inline(self):
        result = table(self.at)
        self.wanted("{")
        while True:
            self.skip(EMPTY)
            if self.next_is("}"):
                break
            self.pair(result)
            self.skip(EMPTY)
            if not self.next_is("}"):
                self.wanted(",")
        self.at += 1
        result.end = self.at
        return result

    def string(self):
        """A string of one of the four forms."""
        start = self.at
        quote = self.source[start]
        long = self.next_is(quote * 3)
        self.at += 3 if long else 1
        if long and (match := re.compile(r"\r?\n").match(self.source, self.at)):
            self.at = match.end()
        text, places = [], []
        while not self.ends_string(quote, long):
            place = self.at
            character = self.character(quote, long)
            text.append(character)
            places += [place] * len(character)
        places.append(self.at)
        self.at += 3 if long else 1
        return Value("string", "".join(text), start, self.at, places=places)

    def ends_string(self, quote, long):
        if self.at >= len(self.source):
            raise NotRead(self.at)
        if not long:
            if self.next_is("\n"):
                raise NotRead(self.at)
            return self.next_is(quote)
        # Up to two quotes may stand just before the three that end it.
        return self.next_is(quote * 3) and not self.next_is(quote * 4)

    def character(self, quote, long):
        """The next character of a string, with its escape; nothing for a line's end that is escaped."""
        if quote == "'" or not self.next_is("\\"):
            self.at += 1
            return self.source[self.at - 1]
        letter = self.source[self.at + 1:self.at + 2]
        if letter in LENGTHS:
            digits = self.source[self.at + 2:self.at + 2 + LENGTHS[letter]]
            self.at += 2 + LENGTHS[letter]
            return chr(int(digits, 16))
        if letter in ESCAPES:
            self.at += 2
            return ESCAPES[letter]
        if long and (match := re.compile(r"\\[ \t]*\r?\n\s*").match(self.source, self.at)):
            self.at = match.end()
            return ""
        raise NotRead(self.at)


def table(start, end=None):
    return Value("table", {}, start, start if end is None else end)


def descend(here, path):
    """The table at a path below another; it is made where it isn't there yet."""
    for name, place in path:
        if here.kind == "array" and here.value:
            here = here.value[-1]
        if here.kind != "table":
            raise NotRead(place[0])
        here.keys.setdefault(name, place)
        here = here.value.setdefault(name, table(place[0], place[1]))
    return here.value[-1] if here.kind == "array" and here.value else here


def tree_of(source):
    """The tree of a document; None where it isn't read."""
    try:
        return Scanner(source).document()
    except (NotRead, ValueError, IndexError, RecursionError, AttributeError, OverflowError):
        return None


def plain(value):
    """A value without places, as `tomllib` gives it, but for the kind 'other', which is its text."""
    if value.kind == "table":
        return {key: plain(inner) for key, inner in value.value.items()}
    if value.kind == "array":
        return [plain(inner) for inner in value.value]
    return value.value
