"""The policy file: what it says, and why the program refuses it."""

import re
import tomllib

from . import schemas, texts
from .places import Finding, Spot, Text, quoted
from .sentences import Refused, nodes_of
from .toml_places import plain, tree_of

ROOT_KEYS = ("version", "domains", "relations", "users")
VERSIONS = (1, 2)
USER_KEYS = ("name", "method", "know", "secrets", "budget", "token")
USER_KEYS_OF_2 = ("name", "method", "know", "secrets", "secrecies", "budget", "token")
SENTENCE_KEYS = ("know", "secrets", "secrecies")
METHODS = ("lying", "refusal", "combined")
TOKEN = re.compile(r"[0-9A-Fa-f]{64}\Z")
PLACE = re.compile(r"users\[(\d+)\]\.(\w+)(?:\[(\d+)\])?\Z")
AT_LINE = re.compile(r"\(at line (\d+), column (\d+)\)")

WANTED = {
    "version": "the number 1, or 2 where a user has secrecies",
    "domains": "a table of domains, as [domains] with lines like person = [\"ann\"]",
    "relations": "a table of relations, as [relations] with lines like hiv = [\"person\"]",
    "users": "an array of tables, each begun by [[users]]",
    "name": "a string with a letter, then letters, digits and _, in ASCII, of at most 32 bytes",
    "method": "one of \"lying\", \"refusal\" and \"combined\", in small letters",
    "know": "an array of strings, each a sentence",
    "secrets": "an array of 1 to 16 strings, each a sentence; in version 2 also of none",
    "secrecies": "an array of at most 8 strings, each a sentence",
    "budget": "a whole number from 1 to 4000000, without quotes",
    "token": "a string of 64 hexadecimal digits: what  printf 'PASS PHRASE' | sha256sum  prints first",
}


class PolicyFile:
    """A policy's bytes and, where they are TOML, its tree."""

    def __init__(self, text):
        self.text = text
        self.source = text.data.decode("utf-8", "replace")
        if self.source.startswith("\ufeff"):
            self.source = " " + self.source[1:]
        self.root = tree_of(self.source) if is_utf8(text.data) else None

    @classmethod
    def of_file(cls, name):
        text = Text.of_file(name) if name is not None else None
        return cls(text) if text is not None else None

    def spot(self, start, end):
        """The place of a piece of the source, of which the first line alone is pointed at."""
        feed = self.source.find("\n", start)
        end = max(min(end, feed) if feed > start else end, start)
        return Spot(self.text, self.offset(start), self.offset(end))

    def offset(self, index):
        """The offset among the file's bytes of a character of the source."""
        marked = 2 if self.text.data.startswith(b"\xef\xbb\xbf") and index > 0 else 0
        return len(self.source[:index].encode("utf-8")) + marked

    def at(self, *path):
        return self.root.at(*path) if self.root is not None else None

    def spot_of(self, *path):
        """The place of the value at a path, or of the last thing on the way to it that is there."""
        for length in range(len(path), 0, -1):
            found = self.at(*path[:length])
            if found is not None:
                return self.spot(found.start, found.end)
        return None

    def spot_of_key(self, *path):
        above = self.at(*path[:-1])
        place = above.keys.get(path[-1]) if above is not None else None
        return self.spot(*place) if place else None

    def spot_in_text(self, string, start, end):
        """The place of some bytes of a string's value."""
        first = len(string.value.encode("utf-8")[:start].decode("utf-8", "ignore"))
        last = max(len(string.value.encode("utf-8")[:end].decode("utf-8", "ignore")), first)
        begin, finish = string.places[min(first, len(string.value))], string.places[min(last, len(string.value))]
        return self.spot(begin, max(finish, begin + 1))

    def version(self):
        """The version by which the file is read here: what it says where that is one, else the first."""
        value = self.at("version")
        return value.value if value is not None and value.value in VERSIONS else VERSIONS[0]

    def user_keys(self):
        return USER_KEYS if self.version() == 1 else USER_KEYS_OF_2

    def declarations(self):
        """The domains and the relations, in the order of their keys as bytes; what isn't of its kind is left out."""
        def listed(key):
            tables = self.at(key)
            pairs = plain(tables).items() if tables is not None and tables.kind == "table" else ()
            return sorted(((name, value) for name, value in pairs
                           if isinstance(value, list) and all(isinstance(item, str) for item in value)),
                          key=lambda pair: pair[0].encode("utf-8", "surrogateescape"))
        return listed("domains"), listed("relations")

    def schema(self):
        return schemas.Schema(*self.declarations())

    def users(self):
        """The users as plain tables."""
        listed = self.at("users")
        return plain(listed) if listed is not None and listed.kind == "array" else []

    def user_named(self, name):
        """The number of the first user of a name, or None."""
        for number, user in enumerate(self.users()):
            if isinstance(user, dict) and user.get("name") == name:
                return number
        return None

    def title(self, number):
        """A user as a sentence names him."""
        name = self.at("users", number, "name")
        if name is not None and name.kind == "string":
            return f"user {quoted(name.value)} (users[{number}], counted from 0)"
        return f"users[{number}] (counted from 0)"


def is_utf8(data):
    try:
        data.decode("utf-8")
    except UnicodeDecodeError:
        return False
    return True


def all_secrets(user):
    """The secrets of a user as the program has them: of each secrecy the sentence and its negation, then the others."""
    both = [text for secrecy in user.get("secrecies", []) for text in (secrecy, f"not ({secrecy})")]
    return both + user.get("secrets", [])


def secret_nodes(schema, user):
    """The nodes of each of all his secrets."""
    of_secrecies = [nodes_of(schema, text.encode()) for text in user.get("secrecies", [])]
    return ([more for nodes in of_secrecies for more in (nodes, nodes + 1)]
            + [nodes_of(schema, text.encode()) for text in user.get("secrets", [])])


def view_nodes(schema, user):
    """The nodes of a user's view without entries."""
    known = sum(nodes_of(schema, text.encode()) for text in user.get("know", []))
    return known + sum(1 + nodes for nodes in secret_nodes(schema, user))


def explain(said, kind, rest, policy):
    """The meaning of `cqe: policy KIND ..`; the policy may be None."""
    maker = {1: not_toml, 2: missing_key, 3: wrong_kind, 4: unknown_key, 5: no_schema, 6: no_sentence, 7: above_limit,
             8: double_user, 9: other_version}.get(kind)
    if maker is None:
        return Finding(said, f"The policy is refused with the kind {kind}, which no format names.")
    return maker(said, rest, policy)


def not_toml(said, rest, policy):
    meaning = "The policy file is no TOML document."
    if policy is None:
        return Finding(said, meaning, None, "give the file by --policy, and the place is shown here")
    data = policy.text.data
    try:
        source = data.decode("utf-8-sig")
    except UnicodeDecodeError as error:
        at = error.start
        utf16 = " It looks like UTF-16." if data[:2] in (b"\xff\xfe", b"\xfe\xff") or b"\0" in data[:64] else ""
        return Finding(said, f"The policy file isn't UTF-8: byte {quoted(data[at:at + 1])} stands here.{utf16}",
                       Spot(policy.text, at, at + 1), "save the file as UTF-8 (iconv -f LATIN1 -t UTF-8 turns Latin-1 "
                       "into it)")
    try:
        tomllib.loads(source)
    except tomllib.TOMLDecodeError as error:
        return broken_toml(said, str(error), source, policy)
    except RecursionError:
        return Finding(said, meaning + " Its values are nested too deep.", None, "nest fewer arrays")
    return Finding(said, meaning + " Python's reader takes it, the program's doesn't.", None,
                   "look for very deep nesting, numbers beyond 64 bits and control characters")


def broken_toml(said, message, source, policy):
    """What tomllib says, its place and what it often comes from."""
    match = AT_LINE.search(message)
    lines = source.split("\n")
    line, column = (int(match[1]), int(match[2])) if match else (len(lines), len(lines[-1]) + 1)
    marked = 3 if policy.text.data.startswith(b"\xef\xbb\xbf") else 0
    before = "\n".join(lines[:line - 1] + [lines[line - 1][:column - 1]]) if line <= len(lines) else source
    at = min(len(before.encode()) + marked, len(policy.text.data))
    why = message.split(" (at ")[0]
    slip = toml_slip(lines[line - 1] if line <= len(lines) else "", why, lines)
    return Finding(said, f"The policy file is no TOML document: {why} (line {line}, column {column}, as Python reads "
                   f"TOML 1.0).",
                   Spot(policy.text, at, at + 1), slip)


def toml_slip(line, why, lines):
    """What a line that isn't TOML often means."""
    value = line.split("=", 1)[1].strip() if "=" in line else ""
    if any(quote in line for quote in "“”„‘’«»"):
        return "write straight quotes, \" or ', around a string"
    if "==" in line:
        return "one = stands between a key and its value"
    if re.match(r"\s*[\w-]+\s*:", line):
        return "a key and its value are joined by =, as method = \"lying\", not by a colon"
    if re.match(r"[A-Za-z]", value):
        return "a string stands in quotes, as method = \"lying\""
    if "array" in why.lower():
        return "an array is items with commas between them, closed by ], as [\"ann\", \"bob\"]; it may begin above"
    if re.match(r"\s*[A-Za-z]\w*\s*[,;]", lines[0]) and "=" not in lines[0]:
        return "this looks like CSV; a policy is TOML, as examples/ward.policy"
    if "overwrite" in why.lower() or "twice" in why.lower() or "declare" in why.lower():
        return "a key or a table stands twice: keep one of them; each user begins with a line [[users]] of his own"
    if "string" in why.lower() or "Illegal character" in why:
        return "a string begins and ends in one line with the same quote, and holds no such quote within"
    return "write the line as key = value, [table] or [[users]], by the rules of toml.io"


def place_of(rest, policy):
    """The user's number, the key and the index of a place, each None where it isn't there."""
    match = PLACE.match(rest)
    if match:
        return int(match[1]), match[2], int(match[3]) if match[3] is not None else None
    return None, rest, None


def missing_key(said, rest, policy):
    user, key, _ = place_of(rest, policy)
    where = "the policy" if user is None else (policy.title(user) if policy else f"users[{user}]")
    meaning = f"The key '{key}' isn't there in {where}, and it has to be."
    advice = f"write {key} = ..: {WANTED.get(key, 'its value')}"
    if policy is None or policy.root is None:
        return Finding(said, meaning, None, advice)
    if user is not None:
        here = policy.at("users", user)
        present = [name for name in here.value if name not in policy.user_keys()] if here else []
        spot = policy.spot_of("users", user)
        return Finding(said, meaning, spot, advice + similar_key(key, present))
    strayed = stray_key(policy, key)
    if strayed:
        return Finding(said, f"{meaning} It stands within the table '{strayed[0]}'.", strayed[1],
                       f"move it above the first line in brackets: what follows [{strayed[0]}] belongs to that table")
    first = policy.spot(0, min(len(policy.source), 1)) if policy.source else None
    present = [name for name in policy.root.value if name not in ROOT_KEYS]
    return Finding(said, meaning, first, advice + similar_key(key, present))


def stray_key(policy, key):
    """The table below which a key of the whole policy stands by mistake, and its place there."""
    for name, inner in policy.root.value.items():
        if key == "version" or name not in ("domains", "relations"):
            for table in (inner.value if inner.kind == "array" else [inner]):
                if table.kind == "table" and key in table.value:
                    return name, policy.spot(*table.keys[key])
    return None


def similar_key(key, present):
    meant = schemas.similar(key, present)
    return f"; there is '{meant}': was it meant?" if meant else ""


def wrong_kind(said, rest, policy):
    user, key, _ = place_of(rest, policy)
    path = (key,) if user is None else ("users", user, key)
    meaning = f"The value of '{rest}' isn't of the kind that is wanted there."
    advice = f"write {WANTED.get(key, 'the value that the formats name')}"
    value = policy.at(*path) if policy else None
    if value is None:
        return Finding(said, meaning, None, advice)
    path, value = culprit(path, value, key)
    why = kind_fault(key, value)
    return Finding(said, f"The value of '{rest}' {why}.", policy.spot(value.start, value.end),
                   kind_advice(key, value) or advice)


def culprit(path, value, key):
    """The part of a value that isn't of its kind: an item of an array, or a value of a table."""
    if key in ("domains", "relations") and value.kind == "table":
        for name in sorted(value.value, key=lambda name: name.encode()):
            inner = value.value[name]
            if inner.kind != "array":
                return path + (name,), inner
            for number, item in enumerate(inner.value):
                if item.kind != "string":
                    return path + (name, number), item
    if key in (*SENTENCE_KEYS, "users") and value.kind == "array":
        for number, item in enumerate(value.value):
            if item.kind != ("table" if key == "users" else "string"):
                return path + (number,), item
    return path, value


def kind_fault(key, value):
    """Why a value isn't what its key wants."""
    if value.kind != "string" or key in ("domains", "relations", "users", *SENTENCE_KEYS, "version", "budget"):
        article = "an" if value.kind in ("integer", "array") else "a" if value.kind != "other" else ""
        what = "a number with a point, a date or a time" if value.kind == "other" else f"{article} {value.kind}"
        if key in ("domains", "relations"):
            return f"has {what} here, where an array of strings or a string in it is wanted"
        return f"is {what} here"
    if key == "name":
        return f"is {quoted(value.value)}, which is no name: {schemas.fault_of_name(value.value)}"
    if key == "token":
        bad = next((c for c in value.value if c not in "0123456789abcdefABCDEF"), None)
        why = f"has {quoted(bad)} in it" if bad else f"has {len(value.value)} digits"
        return f"{why}, and a token has 64 hexadecimal digits alone"
    return f"is {quoted(value.value)}"


def kind_advice(key, value):
    if key == "method" and value.kind == "string":
        meant = schemas.similar(value.value, METHODS)
        return f"write \"{meant}\"" if meant else None
    if key == "users" and value.kind == "table":
        return "write [[users]], with two brackets, before each user"
    if key in SENTENCE_KEYS and value.kind == "string":
        return f"put it in brackets: {key} = [\"..\"]"
    if key in ("budget", "version") and value.kind == "string":
        return "write the number without quotes"
    if key == "token" and value.kind == "string" and len(value.value) != 64:
        return "the token isn't the pass phrase but its SHA-256:  printf 'PASS PHRASE' | sha256sum"
    return None


def unknown_key(said, rest, policy):
    match = re.match(r"users\[(\d+)\]\.(.*)", rest, re.S)
    user, key = (int(match[1]), match[2]) if match else (None, rest)
    known = ROOT_KEYS if user is None else policy.user_keys() if policy else USER_KEYS
    where = "at the top of a policy" if user is None else "of a user"
    path = () if user is None else ("users", user)
    here = policy.at(*path) if policy and policy.root is not None else None
    # The key is printed as it stands, so one with a line feed isn't whole here.
    if here:
        key = next((name for name in sorted(here.value) if name not in known and name.startswith(key)), key)
    meant = schemas.similar(key, known if user is None else USER_KEYS_OF_2)
    advice = f"write '{meant}' for it" if meant else f"leave it out; the keys {where} are {', '.join(known)}"
    if meant and meant not in known:
        advice = f"write '{meant}' for it, and version = 2 at the top of the policy: in version 1 there are none"
    if user is not None and key in ROOT_KEYS:
        advice = f"'{key}' belongs to the whole policy: move it above the first line in brackets"
    whose = f", and stands in that of {policy.title(user)}" if policy and user is not None else ""
    return Finding(said, f"{quoted(key)} is no key {where}{whose}.",
                   policy.spot_of_key(*path, key) if here else None, advice)


def no_schema(said, rest, policy):
    number = int(rest) if rest.isdigit() else 0
    plain_words = {1: "a name stands twice among the domains, relations and constants",
                   2: "a relation has a column of a domain that isn't there",
                   3: "there are too many domains, constants, relations or columns",
                   4: "a domain has no constant", 5: "a name isn't of the form that names have"}
    found = schemas.refusal(*policy.declarations()) if policy and policy.root is not None else None
    why, spot, more = plain_words.get(number, "it is no schema"), None, ()
    if found and found[0] == number:
        why, spot = found[1], spot_of_name(policy, found[2])
        if found[3]:
            more = (f"It stands first at {spot_of_name(policy, found[3])}.",)
    return Finding(said, f"The domains and relations are no schema: {why}.", spot, schemas.SCHEMA_ADVICE.get(number),
                   more)


def spot_of_name(policy, path):
    """The place of a declared name: a string of an array, or a key."""
    return policy.spot_of(*path) if isinstance(path[-1], int) else policy.spot_of_key(*path)


def no_sentence(said, rest, policy):
    words = rest.split(" ")
    if len(words) != 3 or not (words[1].isdigit() and words[2].isdigit()):
        return Finding(said, "A text of the policy is no sentence.", None, texts.ADVICE[2])
    kind, place = int(words[1]), int(words[2])
    user, key, index = place_of(words[0], policy)
    value = policy.at("users", user, key, index) if policy and user is not None else None
    if value is None or value.kind != "string":
        return Finding(said, f"The text {words[0]} is no sentence: {texts.PLAIN.get(kind)} (kind {kind}, "
                       f"{texts.kind_name(kind)}, at byte {place} of the text).", None, texts.ADVICE.get(kind))
    text = value.value.encode("utf-8", "surrogateescape")
    found = texts.about(policy.schema(), text, kind, place)
    meaning = f"{key}[{index}] of {policy.title(user)} is no sentence: {found.meaning} (byte {place} of the text)."
    return Finding(said, meaning, policy.spot_in_text(value, found.start, found.end), found.advice)


def above_limit(said, rest, policy):
    user, key, index = place_of(rest, policy)
    if user is None:
        count = len(policy.users()) if policy else None
        found = "" if count is None else f" There are {count}."
        return Finding(said, f"A policy has 1 to {schemas.USERS} users.{found}",
                       policy.spot_of("users") if policy else None,
                       "write at least one [[users]], and put more than 256 in policies of their own")
    value = policy.at("users", user, key) if policy and policy.root is not None else None
    title = policy.title(user) if policy else f"users[{user}]"
    if index is not None:
        return long_text(said, policy, user, key, index, title)
    if key == "budget":
        shown = f" It is {value.value}." if value is not None else ""
        return Finding(said, f"The budget of {title} is out of its range, 1 to {schemas.BUDGET:,}.{shown}",
                       policy.spot(value.start, value.end) if value else None,
                       "write a number from 1 to 4000000, or leave the key out (1000000)")
    count = len(value.value) if value is not None and value.kind == "array" else None
    spot = policy.spot_of("users", user, key) if policy else None
    most = {"know": schemas.KNOWN, "secrets": schemas.SECRETS, "secrecies": schemas.SECRECIES}.get(key)
    wants_one = key == "secrets" and policy is not None and policy.version() == 1
    if count is not None and (count > most or (wants_one and count == 0)):
        least = "1 to " if wants_one else "at most "
        return Finding(said, f"'{key}' of {title} has {texts.counted(count, 'sentence')}, and {least}{most} are "
                       f"allowed.", spot, TOO_MANY[key] if count else GIVE_ONE)
    if key == "secrecies":
        return wrong_sum(said, policy, user, title, spot)
    return great_view(said, policy, user, title, spot)


GIVE_ONE = "give him at least one; secrets = [\"false\"] hides nothing"
TOO_MANY = {
    "know": "join several into one by 'and'", "secrets": "join several into one by 'or'",
    "secrecies": "leave some out: secrecies can't be joined, since each has to stay open by itself",
    "both": "leave some out, or join several secrets into one by 'or'; secrecies can't be joined",
}


def wrong_sum(said, policy, user, title, spot):
    """The secrets and twice the secrecies are none or too many."""
    rule = f"A secrecy makes two secrets, itself and its negation, and a user has 1 to {schemas.SECRETS} in all."
    here = policy.users()[user] if policy and policy.root is not None else None
    try:
        secrets, secrecies = len(here.get("secrets", [])), len(here.get("secrecies", []))
    except (TypeError, AttributeError):
        return Finding(said, f"There are more than {schemas.SECRECIES} secrecies of {title}, or with his secrets they "
                       f"are too many, or he has neither. {rule}", spot, "leave some out, or " + GIVE_ONE)
    if secrets + secrecies == 0:
        return Finding(said, f"There is neither a secret nor a secrecy of {title}. {rule}", spot, GIVE_ONE)
    return Finding(said, f"There are {texts.counted(secrets, 'secret')} and "
                   f"{texts.counted(secrecies, 'secrecy', 'secrecies')} of {title}, which makes "
                   f"{secrets + 2 * secrecies} secrets. {rule}", spot, TOO_MANY["both"])


def long_text(said, policy, user, key, index, title):
    value = policy.at("users", user, key, index) if policy else None
    advice = "say it with fewer or smaller quantifiers, or split it into several sentences"
    meaning = f"{key}[{index}] of {title} is too large"
    most = schemas.SECRECY_NODES if key == "secrecies" else schemas.SENTENCE_NODES
    why = ", so that its negation has room" if key == "secrecies" else ""
    if value is None or value.kind != "string":
        return Finding(said, f"{meaning}: more than {schemas.TEXT_BYTES:,} bytes, or more than {most:,} nodes.", None,
                       advice)
    size = len(value.value.encode("utf-8", "surrogateescape"))
    spot = policy.spot(value.start, value.end)
    if size > schemas.TEXT_BYTES:
        return Finding(said, f"{meaning}: it has {size:,} bytes, and at most {schemas.TEXT_BYTES:,} are allowed.", spot,
                       advice)
    try:
        nodes = nodes_of(policy.schema(), value.value.encode("utf-8", "surrogateescape"))
    except Refused:
        return Finding(said, meaning + ".", spot, advice)
    return Finding(said, f"{meaning}: it has {nodes:,} nodes with its quantifiers written out over their domains, and "
                   f"at most {most:,} are allowed{why}.", spot, advice)


def great_view(said, policy, user, title, spot):
    """All that a user knows and his secrets together are too much."""
    try:
        nodes = f"have {view_nodes(policy.schema(), policy.users()[user]):,} nodes" if policy else "have too many nodes"
    except (Refused, LookupError, TypeError, AttributeError):
        nodes = "have too many nodes"
    return Finding(said, f"What {title} knows and his secrets together {nodes}, and at most "
                   f"{schemas.FIRST_VIEW_NODES:,} are allowed (or the number of his secrets isn't 1 to 16).", spot,
                   "give him fewer or smaller sentences: a quantifier counts its sentence once for each constant of "
                   "its domain, and a secrecy counts twice")


def double_user(said, rest, policy):
    user, _, _ = place_of(rest, policy)
    value = policy.at("users", user, "name") if policy and user is not None else None
    if value is None:
        return Finding(said, f"The name at {rest} is that of an earlier user.", None,
                       "give each user a name of his own")
    first = policy.user_named(value.value)
    return Finding(said, f"The name {quoted(value.value)} is that of an earlier user, users[{first}].",
                   policy.spot(value.start, value.end),
                   "give each user a name of his own",
                   (f"It stands first at {policy.spot_of('users', first, 'name')}.",))


def other_version(said, rest, policy):
    value = policy.at("version") if policy else None
    spot = policy.spot(value.start, value.end) if value else None
    if value is not None and value.value in VERSIONS:
        return Finding(said, f"The version of this policy is {value.value}, and this program is older than it.", spot,
                       "take a newer program; an older one has no secrecies, and wants version = 1")
    found = f", and here it is {value.value}" if value is not None else ""
    return Finding(said, f"The version of a policy is 1 or 2{found}.", spot,
                   "write version = 1, or version = 2 where a user has secrecies")
