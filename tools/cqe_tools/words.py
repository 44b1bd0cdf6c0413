"""The words of the program: their reading, and why some have none."""

import re
import shlex

from .places import Finding, Spot, Text, quoted
from .schemas import similar

FILES = {"policy": None, "facts": None, "journals": None}
NUMBER = "a number of one to ten decimal digits"
WORKERS = (1, 64)
SESSIONS = (1, 1_000_000)

# Of each command: the options that have to be there and those that may be left out, each with the range of its number.
COMMANDS = {
    "case": ({}, {}),
    "init": (FILES, {}),
    "batch": (FILES, {"workers": WORKERS, "standby": None}),
    "audit": ({**FILES, "user": None}, {"json": None}),
    "selfrun": ({"seed": (0, 4_294_967_295), "users": (1, 256), "asks": (1, 10_000)}, {}),
    "serve": ({**FILES, "listen": None}, {"workers": WORKERS, "sessions": SESSIONS, "standby": None}),
    "migrate": ({**FILES, "to": None}, {}),
    "dossier": ({**FILES, "user": None}, {}),
    "check": ({"policy": None, "facts": None, "user": None}, {}),
    "standby": ({**FILES, "listen": None}, {"sessions": SESSIONS}),
}


class Words:
    """What words say as far as they can be read: the command, the options' values, and the first fault."""

    def __init__(self, words):
        self.words = list(words)
        self.command = self.words[0] if self.words and self.words[0] in COMMANDS else None
        self.values = {}
        self.fault = None  # the number of a word, what is wrong, and what to do
        if self.command is None:
            self.fault = self.no_command()
        else:
            self.read_options()

    def no_command(self):
        names = ", ".join(COMMANDS)
        if not self.words:
            return 0, "there are no words", f"begin with a command: {names}"
        word = self.words[0]
        if word in ("-h", "--help", "help"):
            return (0, f"{quoted(word)} is no command: the program prints no help",
                    "man cqe has all commands and options")
        meant = similar(word, COMMANDS)
        advice = f"write {meant}" if meant else f"begin with a command: {names}"
        return 0, f"{quoted(word)} is no command", advice

    def options(self):
        needed, free = COMMANDS[self.command]
        return {**needed, **free}

    def note(self, number, meaning, advice):
        if self.fault is None:
            self.fault = (number, meaning, advice)

    def read_options(self):
        at = 1
        while at < len(self.words):
            at = self.read_option(at)
        for name in COMMANDS[self.command][0]:
            if name not in self.values:
                self.note(len(self.words), f"the option --{name} is wanting, which '{self.command}' has to have",
                          f"add --{name} and its value")

    def read_option(self, at):
        """Reads the option at a word, and answers where the next one is."""
        word = self.words[at]
        name, joined, value = word[2:].partition("=") if word.startswith("--") else ("", "", "")
        if name not in self.options():
            self.note(at, *self.unknown(word, name))
            return at + 1
        if name in self.values:
            self.note(at, f"the option --{name} stands twice", "keep one of them")
        if name == "json":
            if joined:
                self.note(at, "the option --json has a value, and it takes none", "write --json alone")
            self.values[name] = ""
            return at + 1
        if not joined:
            value = self.words[at + 1] if at + 1 < len(self.words) else None
            if value is None or (value.startswith("-") and value != "-"):
                why = "nothing behind it" if value is None else f"{quoted(value)} behind it, which begins with -"
                self.note(at, f"the option --{name} has {why}, where its value is wanted",
                          f"write a value, and one that begins with - as --{name}=VALUE")
                self.values.setdefault(name, None)
                return at + 1
        self.take_value(at if joined else at + 1, name, value)
        return at + 1 if joined else at + 2

    def take_value(self, at, name, value):
        self.values[name] = value
        bounds = self.options()[name]
        if value == "":
            self.note(at, f"the value of --{name} is empty", "write a value; is a variable of the shell empty?")
        elif bounds and not (re.fullmatch(r"[0-9]{1,10}", value) and bounds[0] <= int(value) <= bounds[1]):
            self.note(at, f"the value {quoted(value)} of --{name} isn't {NUMBER} from {bounds[0]:,} to {bounds[1]:,}",
                      "write such a number, without signs and separators")
        elif name in ("journals", "to") and self.values.get("journals") == self.values.get("to"):
            self.note(at, f"--journals and --to are both {quoted(value)}",
                      "name another directory behind --to, one without journals")

    def unknown(self, word, name):
        if word in ("-h", "--help", "help"):
            return f"{quoted(word)} is no option: the program prints no help", "man cqe has all commands and options"
        if name:
            meant = similar(name, self.options())
            elsewhere = [command for command in COMMANDS if name in {**COMMANDS[command][0], **COMMANDS[command][1]}]
            advice = f"write --{meant}" if meant else f"'{self.command}' has " + (
                ", ".join("--" + option for option in self.options()) or "no options")
            only = f"; it belongs to {', '.join(elsewhere)}" if elsewhere else ""
            return f"'{self.command}' has no option {quoted('--' + name)}{only}", advice
        read = {"case": "script", "batch": "script", "check": "dossier"}.get(self.command)
        if read and not word.startswith("-"):
            return (f"{quoted(word)} is a word too many", f"the {read} is read from standard input: cqe {self.command} "
                    f".. < {word}")
        return (f"{quoted(word)} is no option, and each word behind the command is one",
                "options are written --name value or --name=value, in whole words")


def explain(said, words):
    """The meaning of `cqe: usage`; the words may be None."""
    meaning = "The words have no reading, or --user names a user whom the policy hasn't."
    if words is None:
        return Finding(said, meaning, None, "compare the words with man cqe: one command, then each of its options "
                       "once, in whole words; call it as  cqe-explain -- cqe ..  and the word is shown here")
    read = Words(words)
    if read.fault is None:
        return None
    number, why, advice = read.fault
    return Finding(said, f"The words have no reading: {why}.", spot_of(words, number), advice)


def spot_of(words, number):
    """A word within the whole command line."""
    parts = ["cqe", *(shlex.quote(word) for word in words)]
    line = " ".join(parts)
    start = len(" ".join(parts[:number + 1]).encode("utf-8", "surrogateescape")) + 1
    length = len(parts[number + 1].encode("utf-8", "surrogateescape")) if number + 1 < len(parts) else 1
    return Spot(Text("the words", line.encode("utf-8", "surrogateescape")), start, start + length)
