"""What a refusal of a text by kind and place means."""

from . import slips
from .places import quoted
from .sentences import KINDS, Refused, refusal_of, token_at

PLAIN = {
    1: "a byte begins no word of a sentence",
    2: "a word or the end stands where the grammar doesn't allow it",
    3: "a name isn't known",
    4: "a name is of another domain than is wanted",
    5: "more than eight quantifiers are nested, or more than 64 constructs enclose one place",
    6: "a relation has too many or too few columns",
}
ADVICE = {
    1: "leave it out, or write the word that stands for it",
    2: "write the sentence by the grammar: not, and, or, ->, <->, forall x: domain . .., relation(constant), =, !=",
    3: "write the name as it is declared (case counts), or declare it",
    4: "take a constant or a variable of the domain that the column has; both sides of = are of one domain",
    5: "split the sentence, or say it with fewer parentheses, negations and quantifiers",
    6: "give the relation as many columns as it is declared with",
}


class Said:
    """The meaning of a refusal: a sentence, the bytes that are meant, and what to do."""

    def __init__(self, meaning, start, end, advice):
        self.meaning = meaning
        self.start = start
        self.end = end
        self.advice = advice


def about(schema, text, kind, place):
    """The meaning of a refusal of a text (bytes) over a schema, which may be None."""
    refused = refusal_of(schema, text) if schema is not None else None
    if refused is None or (refused.kind, refused.place) != (kind, place):
        refused = bare(text, kind, place)
        meaning = f"{PLAIN.get(kind, 'the text is no sentence')}: {named(refused.token, text)}"
    else:
        meaning = meaning_of(refused, text)
    hint = slips.hint(text, refused, schema) if schema is not None else None
    return Said(meaning, refused.place, max(refused.token.end, refused.place + 1), hint or ADVICE.get(kind))


def bare(text, kind, place):
    """A refusal of which the kind and the place alone are known."""
    return Refused(kind, token_at(text, min(place, len(text))), "")


def named(token, text):
    """A token as a sentence names it."""
    if token.sort == "end":
        return "the end of the text" if text.strip(b" \t") else "the empty text"
    if token.sort == "bad":
        return quoted(text[token.start:token.end])
    return f"'{token.text}'"


def meaning_of(refused, text):
    """What the reader found, as a sentence."""
    name = named(refused.token, text)
    if refused.kind == 1:
        return f"{name} begins no word of a sentence"
    if refused.kind == 2:
        return f"{name} stands where there should be {refused.wanted}"
    if refused.kind == 3:
        what = {"term": "constant or variable", "relation": "relation", "domain": "domain"}[refused.detail]
        return f"no {what} here has the name {name}"
    if refused.kind == 4:
        found, wanted = refused.detail
        return f"{name} is of the domain '{found}', and one of '{wanted}' is wanted here"
    if refused.kind == 5:
        if refused.detail == "quantifiers":
            return f"{name} opens the ninth nested quantifier, and at most eight are allowed"
        return f"{name} opens the sixty-fifth construct around one place, and at most 64 are allowed"
    return columns(refused, name)


def columns(refused, name):
    relation, has, found = refused.detail
    if found > has:
        return f"the relation '{relation}' has {counted(has, 'column')}, and at {name} there is one more"
    return f"the relation '{relation}' has {counted(has, 'column')}, and here it ends at {name} behind {found}"


def counted(number, word, words=None):
    return f"{number:,} {word}" if number == 1 else f"{number:,} {words or word + 's'}"


def kind_name(kind):
    return KINDS.get(kind, "unknown")
