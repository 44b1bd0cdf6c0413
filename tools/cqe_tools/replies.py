"""Replies with a number: what each means for the question that got it."""

import math
import re

from . import schemas, scripts, texts
from .places import Finding, Spot, quoted
from .sentences import Refused, behind_parentheses, nodes_of, openings

CODE = re.compile(r"error ([0-9]+)(?: ([0-9]+)(?: ([0-9]+))?)?\Z")
# Of the lines of a list that was opened the last one stands for its reply.
REPLY = re.compile(r"(?:yes|no|refused|undecided|protected|unsafe|welcome|bye|done [0-9]+|"
                   r"error [0-9]+(?: [0-9]+){0,2})\Z")
# A line of a list: the constants of the instance, and the reply to it.
INSTANCE = re.compile(r"((?:[A-Za-z][A-Za-z0-9_]* ){1,4})(yes|no|refused|undecided|error [0-9]+(?: [0-9]+){0,2})\Z")
BATCH = re.compile(r"([A-Za-z][A-Za-z0-9_]*) ([0-9]+|op) (.*)\Z")

CLOSED = ("Reasons: what he knows entails one of his secrets, or for lying that one of them is true; he is of method "
          "lying and has a secrecy; for refusal, the facts contradict what he knows; or the test of it costs more than "
          "4,000,000.",)


class Asked:
    """The ask that a reply belongs to: who asked, its text, and where the text stands; each may be None."""

    def __init__(self, user=None, text=None, source=None, start=0, request=None):
        self.user = user
        self.text = text
        self.source = source
        self.start = start
        self.request = request  # the whole line in a session

    def spot(self, begin=0, end=None):
        if self.source is None:
            return None
        whole = self.text if self.text is not None else self.request or b""
        return Spot(self.source, self.start + begin, self.start + (len(whole) if end is None else end))


ORDINALS = ("first", "second", "third", "fourth")

# The words that begin a session's lines.
WORDS = (b"ask", b"list", b"login", b"quit")

# Why a sentence can't be listed so, and what to do, by the number behind the code.
SHAPES = {
    1: ("it doesn't begin with as many exists as are to be listed", "write each exists at the front, or list fewer"),
    2: ("their domains give more than 256 instances", "list fewer quantifiers, or ask for each constant instead"),
    3: ("some instance would be too long or too deep to be asked",
        "write a shorter sentence, or ask for each constant"),
}


def explain(said, code, kind, place, asked, context):
    """The meaning of a reply `error CODE ..`."""
    maker = {20: no_sentence, 21: too_large, 22: full, 23: no_user, 24: closed, 25: no_login, 26: no_line,
             27: secrets_full, 28: no_list, 40: not_appended,
             41: sealed, 50: no_memory}.get(code)
    if maker is None:
        return Finding(said, f"The reply error {code} isn't one of the formats.")
    return maker(said, kind, place, asked, context)


def who(asked):
    return f"user {quoted(asked.user)}" if asked.user else "the user"


def no_sentence(said, kind, place, asked, context):
    if place is None:
        return Finding(said, "The text of the question is no sentence.", asked.spot(), texts.ADVICE[2])
    if asked.text is None:
        return Finding(said, f"The text of the question is no sentence: "
                       f"{texts.PLAIN.get(kind, 'for a reason that no format names')} (kind {kind}, "
                       f"{texts.kind_name(kind)}, at byte {place} of the text).", None, texts.ADVICE.get(kind))
    found = texts.about(context.schema, asked.text, kind, place)
    return Finding(said, f"The text of the question is no sentence: {found.meaning} (byte {place} of the text).",
                   asked.spot(found.start, found.end), found.advice)


def too_large(said, kind, place, asked, context):
    more = ""
    schema = context.schema
    if asked.text is not None and schema is not None:
        try:
            more = f" It has {nodes_of(schema, asked.text):,} nodes."
        except Refused:
            pass
    return Finding(said, f"The question is too large: more than {schemas.SENTENCE_NODES:,} nodes with its quantifiers "
                   f"written out over their domains, or more than {schemas.VIEW_NODES:,} together with all that "
                   f"{who(asked)} knows and was told.{more}",
                   asked.spot(),
                   "ask with fewer or smaller quantifiers; an answered question stays in his view, so ask small ones")


def full(said, kind, place, asked, context):
    return Finding(said, f"The history of {who(asked)} is full: it has {schemas.ANSWERS:,} answers, or its texts and "
                   f"this one have more than {schemas.ANSWERED_BYTES:,} bytes.", asked.spot(),
                   "he gets no further answers with these journals; new ones forget what he was told, so what he "
                   "learnt has to stand in his know then")


def no_user(said, kind, place, asked, context):
    names = [user.get("name") for user in context.policy.users() if isinstance(user, dict)] if context.policy else []
    meant = schemas.similar(asked.user, [name for name in names if isinstance(name, str)]) if asked.user else None
    advice = (f"write '{meant}' (case counts)" if meant else "write the name of a user of the policy"
              + (f": {', '.join(map(str, names[:12]))}" if names else ""))
    return Finding(said, f"The policy has no {who(asked) if asked.user else 'such user'}.", asked.spot(), advice)


def closed(said, kind, place, asked, context):
    advice = ("call cqe-check with the policy and the facts: it tells which reason it is; then change his know, his "
              "secrets, his secrecies or his method")
    number = context.policy.user_named(asked.user) if context.policy and asked.user else None
    spot = context.policy.spot_of("users", number, "name") if number is not None else None
    if context.sort == "case":
        advice = ("change the lines know, secret, secrecy or method; the secrets that know entails are those that he "
                  "would be told by any answer")
    return Finding(said, f"{who(asked)[0].upper()}{who(asked)[1:]} isn't admitted, so he is closed and gets no answer.",
                   spot or asked.spot(), advice, CLOSED)


def no_login(said, kind, place, asked, context):
    if asked.request is not None and asked.request.startswith(b"login"):
        return login_fault(said, asked, context)
    return Finding(said, "Nobody is logged in, or the name and the phrase don't fit.", asked.spot(),
                   "send a line login NAME PHRASE first; the phrase is the one whose SHA-256 stands in the policy as "
                   "token, without a line feed in it (printf, not echo)")


def login_fault(said, asked, context):
    words = asked.request.split(b" ", 2)
    name = words[1].decode("ascii", "replace") if len(words) > 1 else ""
    advice = ("look for a blank at the end of the phrase, and that the token was made by printf, not echo, which adds "
              "a line feed")
    number = context.policy.user_named(name) if context.policy else None
    if context.policy is None:
        return Finding(said, f"The login of {quoted(name)} doesn't hold: no user of this name has this phrase.",
                       asked.spot(), advice)
    if number is None:
        return Finding(said, f"The policy has no user {quoted(name)}.", asked.spot(),
                       "write the name as the policy has it (case counts)")
    if context.policy.at("users", number, "token") is None:
        return Finding(said, f"User {quoted(name)} has no token, so nobody can log in as him.", asked.spot(),
                       "give him a token in the policy: then new journals too")
    return Finding(said, f"The phrase isn't the one of {quoted(name)}: its SHA-256 isn't his token.", asked.spot(),
                   advice)


def no_list(said, kind, place, asked, context):
    """A sentence that can't be listed so: `kind` is the number behind the code."""
    meaning, advice = SHAPES.get(kind, ("for a reason that no format names",
                                        "list a sentence that begins with exists, as list 1 exists x: person . hiv(x)"))
    count, text = scripts.list_of(asked.request or b"") or (0, None)
    begin, end = 0, None
    if text is not None and text == asked.text:
        maker = {1: too_few, 2: too_many_instances}.get(kind, too_long_instance)
        more, begin, end = maker(count, text, openings(text), context.schema)
        meaning += more
    return Finding(said, f"The sentence can't be listed so: {meaning}.", asked.spot(begin, end), advice)


def too_few(count, text, found, schema):
    """What stands where one more `exists` is wanted, and where that is."""
    token = behind_parentheses(text, found[-1].end if found else 0)
    if len(found) >= count or token.sort in ("end", "bad"):
        return "", 0, None
    wanted = "exists" if count == 1 else f"the {ORDINALS[len(found)]} exists"
    return f": here stands {quoted(token.text)}, where {wanted} is wanted", token.start, token.end


def too_many_instances(count, text, found, schema):
    """How many instances there are, and the quantifier with which they are too many."""
    sizes = [len(schema.domains.get(one.domain, ())) for one in found[:count]] if schema is not None else []
    product = 1
    for one, size in zip(found, sizes):
        product *= size
        if product > schemas.INSTANCES:
            return f": {' x '.join(f'{size:,}' for size in sizes)} = {math.prod(sizes):,}", one.start, one.end
    return "", 0, None


def too_long_instance(count, text, found, schema):
    """Where the body begins, which is the instances' text."""
    return "", found[count - 1].end if 0 < count <= len(found) else 0, None


def no_line(said, kind, place, asked, context):
    advice = ("a session has the lines login NAME PHRASE (once), ask SENTENCE, list K SENTENCE and quit, in small "
              "letters, with one blank, in ASCII, of at most 4,096 bytes")
    meaning = "The session doesn't know this line, or it is a second login."
    if asked.request is not None:
        word = asked.request.split(b" ")[0]
        if word == b"login":
            meaning = ("Somebody is logged in already, or the line isn't login NAME PHRASE with a phrase of 1 to 256 "
                       "bytes.")
        elif word == b"list":
            meaning = "The line isn't list K SENTENCE with one digit from 1 to 4."
        elif word.lower() in WORDS and word not in WORDS:
            meaning = f"The session doesn't know {quoted(word)}: its words are in small letters."
        elif not asked.request.isascii():
            meaning = "The line has bytes that aren't ASCII, and a session knows ASCII alone."
        elif word:
            meaning = f"The session knows no line that begins with {quoted(word)} in this form."
    return Finding(said, meaning, asked.spot(), advice)


def secrets_full(said, kind, place, asked, context):
    return Finding(said, f"{who(asked)[0].upper()}{who(asked)[1:]} has 16 secrets, with those that were added, and no "
                   f"more fit.", asked.spot(),
                   "join sentences by or before they are added: who can't conclude the whole can't conclude a part")


def unsafe(said, asked):
    """The meaning of the reply `unsafe`."""
    return Finding(said, f"The secret isn't added: what {who(asked)} knows and was told isn't safe with it, or the "
                   f"search for that needs more than 4,000,000. Nothing changed.", asked.spot(),
                   "take the sentence for known to him: close him, or look by an audit at what he was told; for the "
                   "method lying all his secrets and this one together have to be safe")


def not_appended(said, kind, place, asked, context):
    return Finding(said, f"The answer for {who(asked)} couldn't be written to his journal, in this ask or before, so "
                   f"he isn't told it.", asked.spot(),
                   "look at the disk (df, dmesg), and with --standby whether the standby is reached; his asks get "
                   "error 40 up to a restart or the next start, at which this entry may be found or not")


def sealed(said, kind, place, asked, context):
    return Finding(said, f"The journal of {who(asked)} was refused when it was opened, so he gets no answer.",
                   asked.spot(),
                   "the program's complaint 'cqe: journal NAME CAUSE' at its end names the cause; of a running server "
                   "see it by an audit of him")


def no_memory(said, kind, place, asked, context):
    return Finding(said, "Memory was wanting for this question; nothing was added to the history.", asked.spot(),
                   "ask again, or ask with smaller quantifiers; give the program more memory")
