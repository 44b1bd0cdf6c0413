"""What people write in sentences by habit, and what is written here instead."""

from .schemas import KEYWORDS, similar
from .sentences import BAD_CHARACTER, UNEXPECTED, UNKNOWN_NAME, token_at

# The longest beginning that fits decides.
SIGNS = {
    "&&": "'and'", "&": "'and'", "∧": "'and'", "||": "'or'", "|": "'or'", "∨": "'or'",
    "!": "'not' (and != for two things that differ)", "~": "'not'", "¬": "'not'",
    "=>": "'->'", "⇒": "'->'", "→": "'->'", "<=>": "'<->'", "⇔": "'<->'", "↔": "'<->'",
    "<>": "'!='", "≠": "'!='", "∀": "'forall x: domain .'", "∃": "'exists x: domain .'",
    "–": "'->', with a hyphen", "−": "'->', with a hyphen",
}
QUOTES = "\"'`´“”„‘’«»‚"
WORDS = {
    "implies": "'->'", "then": "'->'", "iff": "'<->'", "equals": "'='", "is": "'='", "xor": "'not (.. <-> ..)'",
    "und": "'and'", "oder": "'or'", "nicht": "'not'", "all": "'forall x: domain .'", "every": "'forall x: domain .'",
    "some": "'exists x: domain .'", "any": "'exists x: domain .'", "exist": "'exists'", "for": "'forall x: domain .'",
    "if": "'A -> B' for: if A then B",
}
QUERY_WORDS = ("select", "insert", "delete", "count", "where")


def hint(text, refused, schema):
    """A sentence on the slip at the place of a refusal, or None where it is no common one."""
    rest = text[refused.place:].decode("utf-8", "replace")
    word = refused.token.text
    if refused.kind == BAD_CHARACTER:
        return of_character(text, refused, rest)
    if word and word not in KEYWORDS and refused.kind in (UNEXPECTED, UNKNOWN_NAME):
        found = of_word(word)
        if found:
            return found
    if refused.kind == UNEXPECTED:
        return of_form(text, refused)
    if refused.kind == UNKNOWN_NAME:
        return of_name(text, refused, schema)
    return None


def of_character(text, refused, rest):
    """The slip of a byte that begins no token."""
    before = text[:refused.place].decode("utf-8", "replace")
    if rest.startswith(">") and before.endswith("="):
        return "instead of => write '->' (and instead of <=> '<->')"
    for sign in sorted(SIGNS, key=len, reverse=True):
        if rest.startswith(sign):
            return f"instead of {sign} write {SIGNS[sign]}"
    first = rest[:1]
    if first == "\ufeff":
        return "this is a byte order mark: save the text without it"
    if first and first in QUOTES:
        return "names stand without quotes here, as hiv(ann)"
    if first.isdigit() and first.isascii():
        return "a name begins with a letter, and there are no numbers: write p1 for 1"
    if first == "_":
        return "a name begins with a letter; _ stands only within one"
    if first in ("<", ">", "+", "-", "*", "/", "%", "^"):
        return "there is no arithmetic and no order: sentences have relations, = and !=, and not, and, or, ->, <->"
    if first in ("\n", "\r"):
        return "a sentence stands in one line; blanks and tabs alone stand between its tokens"
    if first in (";", "?"):
        return "nothing ends a sentence, neither ; nor ?"
    if first and not first.isascii():
        return (f"'{first}' (U+{ord(first):04X}) isn't ASCII: names have the letters a to z and A to Z, digits and _, "
                "so write ae for ä")
    return "a sentence has names, ( ) , : . = != -> <-> and blanks alone"


def of_word(word):
    """The slip of a word that is no keyword here but means one."""
    if word.lower() in KEYWORDS:
        return f"keywords are in small letters: write '{word.lower()}' for {word}"
    if word.lower() in WORDS:
        return f"instead of {word} write {WORDS[word.lower()]}"
    if word.lower() in QUERY_WORDS:
        return "this is no SQL: a question is a sentence that is true or false, as exists x: person . hiv(x)"
    return None


def of_form(text, refused):
    """The slip of a token that can't stand where it is."""
    word, wanted = refused.token.text, refused.wanted
    previous = text[:refused.place].rstrip(b" \t")
    if word == "=" and previous.endswith(b"="):
        return "instead of == write '='"
    if word == "=" and text[refused.place:].startswith(b"=>"):
        return "instead of => write '->'"
    if word == "=":
        return "= stands between two constants or variables; between two sentences write '<->'"
    if wanted.startswith("'.'"):
        return "a dot is missing behind the quantifier's domain: forall x: person . hiv(x)"
    if wanted.startswith("':'"):
        if word == ",":
            return "each variable has a quantifier of its own: forall x: person . forall y: person . .."
        return "a quantifier names its domain: forall x: person . hiv(x)"
    if word == ".":
        return "a dot stands behind a quantifier's domain alone; a sentence doesn't end with one"
    if word == "<->":
        return "'<->' doesn't chain: put the first pair in parentheses"
    if refused.token.sort == "end" and text.strip(b" \t") == b"":
        return "write a sentence there; an ask with nothing behind it asks the empty text"
    if refused.token.sort == "end" and "')'" in wanted:
        return "close the parenthesis that is open at the end"
    if word == ")" and "end" in wanted:
        return "leave this parenthesis out, or open one before: it closes none"
    return None


def of_name(text, refused, schema):
    """The slip of a name that isn't known."""
    name, wanted = refused.token.text, refused.detail
    followed = token_at(text, refused.token.end).text == "("
    if wanted == "term" and name in schema.relations:
        return f"{name} is a relation: its columns stand behind it in parentheses, as {name}({example(schema, name)})"
    if wanted == "relation" and name in schema.domain_of and followed:
        return f"{name} is a constant of {schema.domain_of[name]}: what stands before a parenthesis is a relation"
    if wanted == "domain" and name in schema.relations:
        return f"{name} is a relation; a quantifier wants a domain, as {', '.join(list(schema.domains)[:5])}"
    if wanted in ("term", "relation") and name in schema.domains:
        return f"{name} is a domain, and a sentence names it only in a quantifier: forall x: {name} . .."
    broken = broken_off(text, refused.token)
    if broken:
        return broken
    known = {"relation": schema.relations, "domain": schema.domains}.get(wanted, schema.domain_of)
    meant = similar(name, known)
    if meant:
        return f"write {meant} if that is meant; case counts"
    if wanted == "term" and len(name) <= 2:
        return f"if {name} is a variable: no quantifier around this place binds it, as exists {name}: person . would"
    return None


def broken_off(text, token):
    """What ends a name that was meant to go on; None where a blank or another token does."""
    rest = text[token.end:].decode("utf-8", "replace")
    behind = rest[:1]
    if not behind or behind in " \t(),:.=" or rest.startswith(("!=", "->", "<->")):
        return None
    if not behind.isascii():
        return (f"the name breaks off at '{behind}' (U+{ord(behind):04X}), which isn't ASCII: names have the letters "
                "a to z and A to Z, digits and _, so write ae for ä")
    return f"the name breaks off at {behind}: names have letters, digits and _ alone"


def example(schema, relation):
    """Columns that fit a relation, as they could stand in a sentence."""
    return ", ".join(schema.domains[domain][0] if schema.domains.get(domain) else "x"
                     for domain in schema.relations[relation])
