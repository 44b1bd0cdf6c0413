"""Places in files: a line and a column for people, and a caret under what is meant."""

import re
import unicodedata
from dataclasses import dataclass

SHOWN_WIDTH = 96  # characters of a line that are shown at most


class Text:
    """The bytes of a file under its name."""

    def __init__(self, name, data):
        self.name = name
        self.data = data
        self.starts = None  # where each line begins, once somebody asks

    @classmethod
    def of_file(cls, name):
        """The file's bytes, or None where it can't be read."""
        try:
            with open(name, "rb") as file:
                return cls(str(name), file.read())
        except (OSError, ValueError):
            return None

    def lines(self):
        """The bytes of each line, with their ends."""
        return self.data.splitlines(keepends=True) if b"\r" not in self.data else split_at_feeds(self.data)

    def start_of_line(self, number):
        """The offset at which a line begins, counted from 1."""
        if self.starts is None:
            self.starts = [0] + [feed.end() for feed in re.finditer(b"\n", self.data)]
        return self.starts[number - 1] if 0 < number <= len(self.starts) else len(self.data)

    def line(self, number):
        """The bytes of a line, counted from 1, without its end."""
        return line_from(self.data, self.start_of_line(number))

    def has_line(self, number):
        """Whether the file has so many lines."""
        return number == 1 or self.start_of_line(number) < len(self.data)


def split_at_feeds(data):
    """The lines of bytes, which end at line feeds alone, with their ends."""
    parts = data.split(b"\n")
    lines = [part + b"\n" for part in parts[:-1]]
    return lines + [parts[-1]] if parts[-1] else lines


def line_from(data, start):
    """The bytes from here to the end of the line; one carriage return before a line feed belongs to the end."""
    feed = data.find(b"\n", start)
    if feed < 0:
        return data[start:]
    return data[start:feed - 1] if data[start:feed].endswith(b"\r") else data[start:feed]


@dataclass
class Spot:
    """A piece of a text, from byte `start` to before byte `end`; it ends with a whole character."""

    text: Text
    start: int
    end: int

    def __post_init__(self):
        while self.start < self.end < len(self.text.data) and 0x80 <= self.text.data[self.end] < 0xC0:
            self.end += 1

    @property
    def line(self):
        return self.text.data.count(b"\n", 0, self.start) + 1

    @property
    def column(self):
        """The column in characters, from 1."""
        begin = self.text.data.rfind(b"\n", 0, self.start) + 1
        return len(self.text.data[begin:self.start].decode("utf-8", "replace")) + 1

    def __str__(self):
        return f"{self.text.name}:{self.line}:{self.column}"

    def drawn(self):
        """The place, its line, and a caret under the piece."""
        begin = self.text.data.rfind(b"\n", 0, self.start) + 1
        line = line_from(self.text.data, begin)
        return [str(self)] + drawn(line, self.start - begin, self.end - begin)


def drawn(line, start, end):
    """A line of bytes as people see it, and a line with carets under its bytes from `start` to before `end`."""
    before = visible(line[:start])
    piece = visible(line[start:end])
    after = visible(line[end:])
    if width(before) > SHOWN_WIDTH * 2 // 3:
        before = ".." + before[-(SHOWN_WIDTH // 2):]
    room = max(SHOWN_WIDTH - width(before), 8)
    piece = piece if len(piece) <= room else piece[:room] + ".."
    after = after if len(after) <= room else after[:room] + ".."
    return ["  " + before + piece + after, "  " + " " * width(before) + "^" * max(width(piece), 1)]


def visible(data):
    """Bytes as text in which nothing moves the cursor: a tab is a blank, what isn't printable is written out."""
    return "".join(shown(character) for character in data.decode("utf-8", "backslashreplace"))


def shown(character):
    """A character, or how it is written out."""
    if character == "\t":
        return " "
    if character.isprintable():
        return character
    return f"<{ord(character):02X}>" if ord(character) < 256 else f"<U+{ord(character):04X}>"


def width(text):
    """How many columns a text takes on a terminal."""
    return sum(0 if unicodedata.combining(c) else 2 if unicodedata.east_asian_width(c) in "WF" else 1 for c in text)


def quoted(data, most=60):
    """Bytes or a text as they are named within a sentence."""
    data = data.encode("utf-8", "surrogateescape") if isinstance(data, str) else data
    text = visible(data)
    mark = '"' if "'" in text else "'"
    return mark + (text if len(text) <= most else text[:most] + "..") + mark


@dataclass
class Finding:
    """One explanation: what was said, what it means, where, and what to do."""

    said: str
    meaning: str
    spot: Spot | None = None
    advice: str | None = None
    more: tuple = ()  # further sentences

    def lines(self):
        result = [visible(self.said.encode("utf-8", "surrogateescape")), "  " + self.meaning]
        if self.spot is not None:
            result += ["  " + line for line in self.spot.drawn()]
        result += ["  " + line for line in self.more]
        if self.advice:
            result.append("  What to do: " + self.advice)
        return result
