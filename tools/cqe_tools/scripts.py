"""Scripts of `case` and `batch`, and the lines of sessions: what their lines are, and why the program refuses one."""

import re

from . import facts, schemas, texts
from .places import Finding, Spot, quoted
from .policies import METHODS, TOO_MANY, view_nodes
from .schemas import Schema, similar
from .sentences import Refused, nodes_of, refusal_of, token_at

WORDS = ("domain", "relation", "fact", "method", "know", "secret", "secrecy", "budget", "ask")
DECLARATIONS = tuple(word.encode() for word in WORDS[:-1])
SENTENCE_WORDS = (b"know", b"secret", b"secrecy")
BAD = re.compile(rb"[^\t\x20-\x7e]")
BLANK = b" \t"
ITEM = re.compile(rb"([A-Za-z][A-Za-z0-9_]*)[ \t]([0-9]+(?=[ \t]ask)|op(?=[ \t]protect[ \t]))[ \t](?:ask|protect)"
                  rb"(?:[ \t](.*))?\Z", re.S)
LISTED = re.compile(rb"list[ \t]([1-4])[ \t](.*)\Z", re.S)
DOMAIN = re.compile(rb"domain[ \t][ \t]*([A-Za-z]\w*)[ \t]*=(.*)\Z", re.S | re.A)
RELATION = re.compile(rb"relation[ \t][ \t]*([A-Za-z]\w*)[ \t]*\((.*)\)[ \t]*\Z", re.S | re.A)
OTHER_WORDS = {
    "query": "ask", "question": "ask", "select": "ask", "ask:": "ask", "facts": "fact", "domains": "domain",
    "relations": "relation", "secrets": "secret", "secrecies": "secrecy", "knows": "know", "knowledge": "know",
    "censor": "method", "table": "relation", "user": "know",
}


def is_silent(line):
    return line.strip(BLANK) == b"" or line.startswith(b"#")


def numbered(text):
    """The number and the bytes of each line that says something."""
    for number, line in enumerate(text.lines(), 1):
        bare = line[:-1] if line.endswith(b"\n") else line
        bare = bare[:-1] if line.endswith(b"\r\n") else bare
        if not is_silent(bare):
            yield number, bare


def sort_of(text):
    """Whether a script is of 'case', of 'batch' or of a 'session', by the first line that can be of one alone."""
    talks = False
    for _, line in numbered(text):
        word, _ = word_and_rest(line)
        if line.startswith(b"*") or ITEM.match(line):
            return "batch"
        if word in DECLARATIONS:
            return "case"
        talks = talks or word in (b"login", b"quit", b"ask", b"list")
    return "session" if talks else "case"


class CaseScript:
    """The declarations of a script of `case`, up to a line."""

    def __init__(self, text, before=None):
        self.domains, self.relations, self.facts = [], [], set()
        self.known, self.secrets, self.secrecies = [], [], []
        self.method = self.budget = self.asked = None  # the number of the line
        self.method_word = ""
        for number, line in numbered(text):
            if before is not None and number >= before:
                break
            self.take(number, line)

    def schema(self):
        return Schema(self.domains, self.relations)

    def sentences(self, word):
        """The texts of the lines that begin with a word that a sentence follows."""
        return {b"know": self.known, b"secret": self.secrets, b"secrecy": self.secrecies}[word]

    def user(self):
        """What the script says of its user, as a policy says it."""
        return {key: [text.decode("ascii", "replace") for text in texts]
                for key, texts in (("know", self.known), ("secrets", self.secrets), ("secrecies", self.secrecies))}

    def take(self, number, line):
        word, rest = word_and_rest(line)
        if word == b"domain" and (match := DOMAIN.match(line)):
            self.domains.append((match[1].decode(), names_in(match[2])))
        elif word == b"relation" and (match := RELATION.match(line)):
            self.relations.append((match[1].decode(), names_in(match[2])))
        elif word == b"fact" and rest is not None:
            self.facts.add(re.sub(rb"[ \t]", b"", rest))
        elif word == b"method":
            self.method, self.method_word = number, (rest or b"").decode("ascii", "replace")
        elif word == b"budget":
            self.budget = number
        elif word in SENTENCE_WORDS and rest is not None:
            self.sentences(word).append(rest)
        elif word == b"ask":
            self.asked = self.asked or number


def word_and_rest(line):
    """The first word of a line, and what stands behind the one blank; None where there is none."""
    match = re.match(rb"([^ \t]*)(?:[ \t](.*))?\Z", line, re.S)
    return match[1], match[2]


def names_in(piece):
    return [name.strip(BLANK).decode("ascii", "replace") for name in piece.split(b",") if name.strip(BLANK)]


def asks(text, sort):
    """Of each ask of a script: the line's number, where the text begins in it, who asks, and the text."""
    result = []
    for number, line in numbered(text):
        if sort == "batch":
            match = ITEM.match(line)
            if match:
                result.append((number, match.start(3) if match[3] is not None else len(line),
                               f"{match[1].decode()} {match[2].decode()}", match[3] or b""))
            else:
                result.append((number, 0, "*", None))
        elif sort == "session" or word_and_rest(line)[0] == b"ask":
            start, text = asked_in(line)
            result.append((number, start, None, text))
    return result


def asked_in(line):
    """Where the text of a session's line begins, and the text; None where the line asks nothing."""
    word, rest = word_and_rest(line)
    listed = list_of(line)
    if listed is not None:
        return len(line) - len(listed[1]), listed[1]
    if word == b"ask":
        return (4, rest) if rest is not None else (len(line), b"")
    return 0, None


def list_of(line):
    """How many quantifiers a line `list K SENTENCE` opens, and its sentence; None for any other line."""
    match = LISTED.match(line)
    return (int(match[1]), match[2]) if match else None


def explain(said, kind, line, sort, text):
    """The meaning of `cqe: script KIND LINE`; the script may be None."""
    if text is None or not (text.has_line(line) or kind == 3):
        return Finding(said, f"Line {line} of the script is refused: "
                       f"{PLAIN.get(kind, f'kind {kind}, which no format names')}.", None,
                       "give the script by --script, and the reason is shown here" if text is None else None)
    sort = "case" if kind > 3 else sort if sort in ("case", "batch") else sort_of(text)
    data, start = text.line(line), text.start_of_line(line)
    maker = {1: not_a_line, 2: too_long, 3: too_many, 4: no_schema, 5: no_fact, 6: no_sentence, 7: above_limit,
             8: out_of_order}.get(kind)
    if maker is None:
        return Finding(said, f"Line {line} of the script is refused with the kind {kind}, which no format names.",
                       Spot(text, start, start + len(data)))
    before = CaseScript(text, line)
    meaning, begin, end, advice = maker(data, sort, before)
    return Finding(said, f"Line {line} of the script {meaning}.",
                   Spot(text, start + begin, start + max(end, begin + 1)), advice)


PLAIN = {
    1: "it has none of the shapes of a script's lines, or a byte that isn't a tab or from the space to the tilde",
    2: "it has more than 4,096 bytes", 3: "a script has at most 100,000 lines",
    4: "with it the declarations are no schema",
    5: "it is no fact, or the 100,001st", 6: "its text is no sentence", 7: "a limit is passed",
    8: "it stands in the wrong order: declarations come before the first ask, method and budget once, a method and a "
    "secret or a secrecy before an ask",
}


def too_long(data, sort, before):
    return (f"has {len(data):,} bytes, and at most {schemas.TEXT_BYTES:,} are allowed", 0, 1,
            "split the sentence, or shorten its names")


def too_many(data, sort, before):
    return f"is one too many: a script has at most {schemas.SCRIPT_LINES:,}", 0, 1, "cut the script into several"


def not_a_line(data, sort, before):
    if data.startswith(b"\xef\xbb\xbf"):
        return "begins with a byte order mark (EF BB BF)", 0, 3, "save the script as UTF-8 without a byte order mark"
    bad = BAD.search(data)
    if bad:
        return bad_byte(data, bad.start())
    if data[:1] in (b" ", b"\t"):
        what = ("a comment begins with # in the first column" if data.lstrip(BLANK).startswith(b"#") else "begin the "
                "line with its first word")
        return "begins with a blank", 0, len(data) - len(data.lstrip(BLANK)), what
    return case_shape(data) if sort == "case" else batch_shape(data)


def bad_byte(data, at):
    length = token_at(data, at).end - at if token_at(data, at).sort == "bad" else 1
    piece = data[at:at + length]
    character = piece.decode("utf-8", "replace")
    if data[at:at + 1] == b"\r":
        return ("has a carriage return within or at its end", at, at + 1,
                "end lines by a line feed, or by one carriage return and a line feed")
    if data[at:at + 1] == b"\0":
        return "has a null byte", at, at + 1, "is it UTF-16? save it as ASCII or UTF-8"
    if len(character) == 1 and character != "\ufffd" and not character.isascii():
        return (f"has '{character}' (U+{ord(character):04X}), and lines have ASCII alone", at, at + length,
                "write names without umlauts and accents (ae for ä), and straight signs; only comments may hold others")
    return (f"has the byte 0x{data[at]:02X}, and lines have tabs and the bytes from the space to the tilde alone", at,
            at + 1, "leave it out")


def case_shape(data):
    """Why a line has no shape of a script of a case."""
    word, rest = word_and_rest(data)
    name = word.decode("ascii", "replace")
    if name not in WORDS:
        if ITEM.match(data) or data.startswith(b"*"):
            return ("is one of a script of batch, and this is read by case", 0, len(data),
                    "call cqe batch, or write ask SENTENCE")
        meant = OTHER_WORDS.get(name.lower()) or similar(name, WORDS)
        advice = (f"write '{meant}', with one blank behind it" if meant else f"begin the line with one of "
                  f"{', '.join(WORDS)}, or with #")
        return f"begins with {quoted(word)}, which begins no line of a script", 0, max(len(word), 1), advice
    begin = min(len(word) + 1, len(data))
    if rest is None:
        return (f"has nothing behind '{name}'", 0, len(word), f"write one blank and what is to follow, as "
                f"{EXAMPLES[name]}")
    if name == "method":
        meant = similar(name_of(rest), METHODS)
        return (f"has {quoted(rest)} behind 'method'", begin, len(data),
                f"write one of {', '.join(METHODS)}" + (f": {meant}?" if meant else ""))
    if name == "budget":
        return (f"has {quoted(rest)} behind 'budget'", begin, len(data),
                "write one to ten digits without signs and blanks, as budget 1000000")
    if name == "secrecy":
        return "is a secrecy, and this program is older than these", 0, len(word), "take a newer program"
    return f"isn't of the form of a {name}", begin, len(data), f"write it as {EXAMPLES[name]}" + (
        ": the names in parentheses, also where there are none" if name == "relation" else
        ": names are a letter, then letters, digits and _" if name == "domain" else "")


EXAMPLES = {
    "domain": "domain person = ann, bob", "relation": "relation hiv(person)", "fact": "fact hiv(ann)",
    "method": "method lying",
    "know": "know forall x: person . drug(x) -> hiv(x)", "secret": "secret hiv(ann)", "secrecy": "secrecy hiv(ann)",
    "budget": "budget 1000000", "ask": "ask hiv(ann)",
}


def name_of(rest):
    return rest.decode("ascii", "replace").strip()


def batch_shape(data):
    """Why a line has no shape of a script of a batch."""
    form = ("write NAME SESSION ask SENTENCE with one blank between, as nurse 1 ask hiv(ann), or NAME op protect "
            "SENTENCE, or * restart")
    words = re.split(rb"[ \t]", data)
    if data.startswith(b"*") or data.lower().strip() == b"restart":
        return (f"is {quoted(data)}, and a restart is '* restart'", 0, len(data),
                "write * restart with one blank, small letters and nothing behind it")
    if words[0].decode("ascii", "replace") in WORDS and words[0] != b"ask":
        return "is one of a script of case, and this is read by batch", 0, len(words[0]), "call cqe case, or " + form
    fault = schemas.fault_of_name(words[0].decode("ascii", "replace"))
    if fault or words[0] == b"ask":
        why = f"begins with {quoted(words[0])}, which is no user's name" + (f": {fault}" if fault else "")
        return why, 0, max(len(words[0]), 1), form
    begin = len(words[0]) + 1
    caller = words[1] if len(words) > 1 else b""
    adds = caller == b"op"
    if not adds and (not re.match(rb"[1-9][0-9]?\Z", caller) or int(caller) > 64):
        return (f"has {quoted(caller)} where a session's number is wanted", min(begin, len(data)),
                begin + len(caller),
                "write a number from 1 to 64 without leading zeros, with one blank before and behind it; or op where "
                "a secret is to be added")
    begin += len(caller) + 1
    found = words[2] if len(words) > 2 else b""
    if adds and found == b"protect":
        return ("has nothing behind 'protect'", begin, begin + len(found),
                "write one blank and the sentence, as nurse op protect hiv(ann)")
    return (f"has {quoted(found)} where '{'protect' if adds else 'ask'}' is wanted", min(begin, len(data)),
            begin + len(found), form)


def declaration(data):
    """The name that a line of a domain or a relation declares, with its names in the list and where that begins."""
    for sort, pattern in (("domain", DOMAIN), ("relation", RELATION)):
        match = pattern.match(data)
        if match:
            return sort, match[1].decode(), names_in(match[2]), match.start(1), match.start(2)
    return None, "", [], 0, 0


def no_schema(data, sort, before):
    which, name, inner, at, inner_at = declaration(data)
    if which == "domain":
        before.domains.append((name, inner))
    elif which == "relation":
        before.relations.append((name, inner))
    found = schemas.refusal(before.domains, before.relations)
    if found is None:
        return "makes no schema with those above", 0, len(data), None
    number, why, path, _ = found
    # The path ends with a number where the name is one of those in the list.
    culprit = inner[path[-1]] if isinstance(path[-1], int) and path[-1] < len(inner) else name
    match = re.compile(rb"\b" + culprit.encode() + rb"\b").search(data, inner_at if isinstance(path[-1], int) else at)
    begin, end = match.span() if match else (at, at + len(name))
    above = "; domains stand above the relations that use them" if number == 2 else ""
    return f"makes no schema: {why}", begin, end, schemas.SCHEMA_ADVICE[number] + above


def no_fact(data, sort, before):
    rest = data[5:]
    try:
        facts.atom(before.schema(), rest)
    except facts.NoFact as fault:
        return f"is no fact: {fault.meaning}", 5 + fault.start, 5 + fault.end, fault.advice
    return (f"is one fact more than {schemas.FACTS:,}", 5, len(data),
            "leave out facts that no question and no secret needs")


def no_sentence(data, sort, before):
    word, rest = word_and_rest(data)
    refused = refusal_of(before.schema(), rest or b"")
    if refused is None:
        return "has a text that is no sentence", len(word) + 1, len(data), texts.ADVICE[2]
    found = texts.about(before.schema(), rest or b"", refused.kind, refused.place)
    begin = len(word) + 1
    return (f"has no sentence behind '{name_of(word)}': {found.meaning} (byte {refused.place} of the text)",
            begin + found.start, begin + found.end, found.advice)


def above_limit(data, sort, before):
    word, rest = word_and_rest(data)
    rest = rest or b""
    begin, end = len(word) + 1, len(data)
    if word == b"budget":
        return (f"has the budget {name_of(rest)}, and a budget is from 1 to {schemas.BUDGET:,}", begin, end,
                "write a number from 1 to 4000000")
    try:
        nodes = nodes_of(before.schema(), rest)
        advice = ("say it with fewer or smaller quantifiers: one counts its sentence once for each constant of its "
                  "domain")
        most = schemas.SECRECY_NODES if word == b"secrecy" else schemas.SENTENCE_NODES
        if nodes > most:
            return f"has a sentence of {nodes:,} nodes, and at most {most:,} are allowed", begin, end, advice
        before.sentences(word).append(rest)
        many = too_many_of(word, before)
        if many is not None:
            return many[0], 0, end, many[1]
        view = view_nodes(before.schema(), before.user())
        return (f"makes a view of {view:,} nodes, and at most {schemas.FIRST_VIEW_NODES:,} are allowed", begin, end,
                advice)
    except Refused:
        return "passes a limit", begin, end, None


def too_many_of(word, case):
    """Why a script has too many lines that begin with a word, and what to do; None where it hasn't."""
    if word == b"know":
        if len(case.known) <= schemas.KNOWN:
            return None
        return f"is the {len(case.known)}th 'know', and at most {schemas.KNOWN} are allowed", TOO_MANY["know"]
    count = len(case.secrets) + 2 * len(case.secrecies)
    if count <= schemas.SECRETS:
        return None
    if not case.secrecies:
        return f"is the {count}th 'secret', and at most {schemas.SECRETS} are allowed", TOO_MANY["secrets"]
    return (f"makes {count} secrets in all, since a secrecy makes two, itself and its negation, and at most "
            f"{schemas.SECRETS} are allowed", TOO_MANY["both"])


def out_of_order(data, sort, before):
    word, _ = word_and_rest(data)
    name = word.decode("ascii", "replace")
    if word == b"ask":
        wanting = [what for what, there in (("'method'", before.method),
                                            ("'secret' or 'secrecy'", before.secrets + before.secrecies)) if not there]
        missing = " and no ".join(wanting) or "'method' or 'secret'"
        return f"asks before there is a method and a secret: there is no {missing} above", 0, 3, (
            "write method lying, refusal or combined, and at least one secret or secrecy, above the first ask (secret "
            "false hides nothing)")
    if before.asked:
        return (f"is a declaration ('{name}') behind the ask in line {before.asked}", 0, len(word),
                "move it above the first ask")
    first = before.method if word == b"method" else before.budget
    return (f"is a second '{name}': the first stands in line {first}", 0, len(word),
            "keep one of them: a script has one user")
