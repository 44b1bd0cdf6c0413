"""The facts file: why the program refuses it, and where."""

import re

from . import schemas, slips, texts
from .places import Finding, Spot, Text, quoted
from .sentences import token_at

MOST = schemas.FACTS


class NoFact(Exception):
    """Why bytes are no fact: a sentence, the bytes that are meant, and what to do."""

    def __init__(self, meaning, start, end, advice):
        super().__init__(meaning)
        self.meaning, self.start, self.end, self.advice = meaning, start, end, advice


def atom(schema, text):
    """The fact that bytes are, as names; NoFact where they are none."""
    relation = token_at(text, 0)
    if relation.sort != "name":
        raise wrong_start(text, relation)
    opening = token_at(text, relation.end)
    if relation.text not in schema.relations:
        raise unknown_relation(schema, text, relation, opening)
    if opening.text != "(":
        raise no_parenthesis(schema, text, relation, opening)
    at, constants, columns = opening.end, [], schema.relations[relation.text]
    if columns:
        for number, domain in enumerate(columns):
            constant = token_at(text, at)
            constants.append(in_column(schema, text, constant, relation.text, columns, number, domain))
            at = constant.end
            if number + 1 < len(columns):
                at = comma(text, token_at(text, at), relation.text, columns, number + 1)
    closing = token_at(text, at)
    if closing.text != ")":
        raise not_closed(text, closing, relation.text, columns)
    nothing_behind(text, token_at(text, closing.end))
    return (relation.text, *constants)


def shown(text, token):
    return quoted(text[token.start:token.end]) if token.sort != "end" else "the end of the line"


def wrong_start(text, token):
    if text.startswith(b"\xef\xbb\xbf"):
        return NoFact("the line begins with a byte order mark (EF BB BF)", 0, 3,
                      "save the file as UTF-8 without a byte order mark")
    if re.match(rb"//|--|/\*|%|;", text[token.start:]):
        advice = "a comment begins with #"
    else:
        advice = bad_byte(text, token) or "begin the line with a relation, as hiv(ann)"
    return NoFact(f"a fact begins with a relation, and here stands {shown(text, token)}", token.start, token.end,
                  advice)


def bad_byte(text, token):
    """What to do about a byte that begins no token; None for other tokens."""
    if token.sort != "bad":
        return None
    character = text[token.start:token.end].decode("utf-8", "replace")
    if character in "\"'`´“”„‘’«»":
        return "names stand without quotes, as hiv(ann)"
    if character.isdigit():
        return "a name begins with a letter: write p1 for 1, in the policy and here"
    if character in ";|":
        return "write the columns in parentheses with a comma between two, as lies(ann, ward1)"
    if not character.isascii():
        return (f"'{character}' (U+{ord(character[0]):04X}) isn't ASCII: write the name as the policy has it, as ae "
                f"for ä")
    return f"leave {character!r} out"


def unknown_relation(schema, text, token, behind):
    meaning = f"no relation has the name '{token.text}'"
    if behind.text in (",",) or text[behind.start:behind.start + 1] in (b";", b"\t", b"|"):
        advice = "this looks like CSV: each line is a relation with constants in parentheses, as hiv(ann)"
    elif token.text == "fact" and behind.sort == "name":
        advice = "'fact' stands in scripts of case alone: leave it out here"
    elif token.text == "not":
        advice = "what isn't said is false: leave the line out"
    elif token.text in schema.domain_of:
        advice = f"'{token.text}' is a constant: the relation stands first, as hiv(ann)"
    else:
        meant = schemas.similar(token.text, schema.relations)
        advice = f"write '{meant}' (case counts)" if meant else "declare it, or write a relation that is declared: " + (
            ", ".join(list(schema.relations)[:8]) or "it has none")
    return NoFact(meaning, token.start, token.end, advice)


def no_parenthesis(schema, text, relation, behind):
    if behind.text == "," or text[behind.start:behind.start + 1] in (b";", b"|", b":") or behind.sort == "name":
        advice = (f"write it as {relation.text}(..): this looks like CSV, where the relation isn't followed by "
                  f"parentheses")
    else:
        advice = f"write the columns in parentheses, as {relation.text}({', '.join(schema.relations[relation.text])})"
    return NoFact(f"behind the relation '{relation.text}' stands {shown(text, behind)}, where '(' is wanted",
                  behind.start, behind.end, advice)


def in_column(schema, text, token, relation, columns, number, domain):
    """The constant in a column."""
    where = f"column {number + 1} of '{relation}'"
    if token.text == ")":
        raise NoFact(f"the relation '{relation}' has {texts.counted(len(columns), 'column')}, and here it ends behind "
                     f"{number}",
                     token.start, token.end, texts.ADVICE[6])
    if token.sort != "name":
        raise NoFact(f"in {where} stands {shown(text, token)}, where a constant of '{domain}' is wanted", token.start,
                     token.end,
                     bad_byte(text, token) or f"write a constant of '{domain}'")
    found = schema.domain_of.get(token.text)
    if found is None:
        meant = schemas.similar(token.text, schema.domains.get(domain, ()))
        broken = slips.broken_off(text, token)
        advice = broken or (f"write '{meant}' (case counts)" if meant else
                            f"add it to the domain '{domain}', or write one of its constants")
        raise NoFact(f"no constant has the name '{token.text}' ({where})", token.start, token.end, advice)
    if found != domain:
        raise NoFact(f"'{token.text}' is of the domain '{found}', and {where} is of '{domain}'", token.start, token.end,
                     texts.ADVICE[4])
    return token.text


def comma(text, token, relation, columns, done):
    """Where the next column begins."""
    if token.text == ",":
        return token.end
    if token.text == ")":
        raise NoFact(f"the relation '{relation}' has {texts.counted(len(columns), 'column')}, and here it ends behind "
                     f"{done}",
                     token.start, token.end, texts.ADVICE[6])
    raise NoFact(f"behind column {done} of '{relation}' stands {shown(text, token)}, where ',' is wanted", token.start,
                 token.end,
                 bad_byte(text, token) or "write a comma between two columns")


def not_closed(text, token, relation, columns):
    if token.text == "," or (not columns and token.sort == "name"):
        return NoFact(f"the relation '{relation}' has {texts.counted(len(columns), 'column')}, and here is one more",
                      token.start, token.end,
                      texts.ADVICE[6])
    return NoFact(f"behind the last column of '{relation}' stands {shown(text, token)}, where ')' is wanted",
                  token.start, token.end,
                  bad_byte(text, token) or "close the parenthesis")


def nothing_behind(text, token):
    if token.sort == "end":
        return
    rest = text[token.start:]
    if rest[:1] in (b".", b";"):
        advice = "no sign ends a fact: leave it out"
    elif rest[:1] == b"#" or rest[:2] in (b"//", b"--"):
        advice = "a comment stands in a line of its own, which begins with #"
    else:
        advice = "write one fact in each line"
    raise NoFact(f"behind the fact stands {shown(text, token)}", token.start, len(text), advice)


def is_silent(line):
    return re.match(rb"[ \t]*(#|\Z)", line) is not None


def explain(said, kind, line, policy, text):
    """The meaning of `cqe: facts KIND LINE`; the policy and the facts file may be None."""
    if kind == 3:
        return not_utf8(said, text)
    if kind == 2:
        return Finding(said, f"Line {line} of the facts is the {MOST + 1:,}th fact, and at most {MOST:,} different "
                       f"ones are allowed.",
                       spot_of_line(text, line), "leave out facts that no question and no secret needs")
    if kind != 1:
        return Finding(said, f"The facts are refused with the kind {kind}, which no format names.")
    meaning = f"Line {line} of the facts is no fact"
    if text is None or not text.has_line(line):
        return Finding(said, meaning + " of the policy's relations.", None,
                       "write a relation with constants in parentheses, as hiv(ann)")
    data, start = text.line(line), text.start_of_line(line)
    long = text.data.find(b"\n", start)
    length = (long if long >= 0 else len(text.data)) - start
    if length > schemas.TEXT_BYTES:
        return Finding(said, f"{meaning}: it has {length:,} bytes, and at most {schemas.TEXT_BYTES:,} are allowed.",
                       Spot(text, start, start + 1), "write one fact in each line")
    if policy is None or policy.root is None:
        return Finding(said, meaning + " of the policy's relations.", spot_of_line(text, line),
                       "give the policy by --policy, and the reason is shown here")
    try:
        atom(policy.schema(), data)
    except NoFact as fault:
        return Finding(said, f"{meaning}: {fault.meaning}.",
                       Spot(text, start + fault.start, start + max(fault.end, fault.start + 1)),
                       fault.advice)
    return Finding(said, meaning + " of the policy's relations.", spot_of_line(text, line),
                   "see that this is the facts file that the program read: this line reads as a fact of the policy")


def spot_of_line(text, line):
    if text is None or not text.has_line(line):
        return None
    start = text.start_of_line(line)
    return Spot(text, start, start + len(text.line(line)))


def not_utf8(said, text):
    meaning = "The facts file isn't UTF-8."
    advice = "save the file as UTF-8 (iconv -f LATIN1 -t UTF-8 turns Latin-1 into it), with names in ASCII"
    if text is None:
        return Finding(said, meaning, None, advice)
    try:
        text.data.decode("utf-8")
    except UnicodeDecodeError as error:
        if text.data[:2] in (b"\xff\xfe", b"\xfe\xff"):
            advice = "it is UTF-16: iconv -f UTF-16 -t UTF-8 turns it into UTF-8, and take the byte order mark away"
        at = error.start
        return Finding(said, f"The facts file isn't UTF-8: the byte 0x{text.data[at]:02X} stands here.",
                       Spot(text, at, at + 1), advice)
    return Finding(said, meaning, None, advice)


def count(text):
    """How many different facts the lines of a file that was accepted state."""
    lines = (line for line in Text.lines(text) if not is_silent(line.rstrip(b"\r\n")))
    return len({re.sub(rb"[ \t\r\n]", b"", line) for line in lines})


def read(schema, text):
    """The facts that the lines of a file state, each as its names; NoFact at the first line that is none."""
    stated = set()
    for number, line in enumerate(text.lines(), 1):
        bare = line.removesuffix(b"\n").removesuffix(b"\r") if line.endswith(b"\n") else line
        if not is_silent(bare):
            try:
                stated.add(atom(schema, bare))
            except NoFact as fault:
                raise NoFact(f"line {number}: {fault.meaning}", fault.start, fault.end, fault.advice) from fault
    return stated
