"""The tools' own readers beside others: sentences beside the program, TOML beside tomllib."""

import random
import tomllib
import unittest

import program
from told import POLICY  # makes the tools' modules found, too

from cqe_tools.schemas import Schema
from cqe_tools.sentences import Refused, nodes_of, sentence_of
from cqe_tools.toml_places import plain, tree_of

SCHEMA = Schema([("person", ["ann", "bob"]), ("ward", ["w1", "w2", "w3"])],
                [("hiv", ["person"]), ("lies", ["person", "ward"]), ("z", [])])
# With a budget of 1 each search is spent at once, so that an ask costs nothing and adds nothing to what is known.
SCRIPT = """domain person = ann, bob
domain ward = w1, w2, w3
relation hiv(person)
relation lies(person, ward)
relation z()
method lying
secret false
budget 1
"""
PIECES = ["hiv", "lies", "z", "ann", "bob", "w1", "person", "ward", "x", "y", "(", ")", ",", ":", ".", "=", "!=", "->",
          "<->", "not", "and", "or", "true", "false", "forall", "exists", "$", "<", "-", "z()", "hiv(ann)",
          "lies(ann, w2)", "exists x: person .", "forall y: ward .", "hiv(x)", "lies(x, y)", "AND", ""]
GOOD = ["forall x: person . hiv(x) -> exists y: ward . lies(x, y)",
        "not (hiv(ann) and lies(bob, w1)) or z() <-> ann = bob",
        "(exists x: person . x != ann and hiv(x)) -> z()", "(" * 63 + "z()" + ")" * 63, "z() -> " * 63 + "z()"]


def texts(count):
    """Pieces in any order, and sentences in which some pieces are changed."""
    draw = random.Random(1)
    for _ in range(count):
        if draw.random() < 0.4:
            yield " ".join(draw.choice(PIECES) for _ in range(draw.randint(0, 9)))
            continue
        text = draw.choice(GOOD)
        for _ in range(draw.randint(1, 2)):
            at = draw.randint(0, len(text))
            text = text[:at] + draw.choice(["", " "]) + draw.choice(PIECES) + " " + text[at + draw.randint(0, 3):]
        yield text


def read(text):
    """The reply that the text of an ask gets, or 'a mark'."""
    try:
        return "error 21" if nodes_of(SCHEMA, text.encode()) > 20_000 else "a mark"
    except Refused as refused:
        return f"error 20 {refused.kind} {refused.place}"


def printed(sentence, depth=1):
    """The canonical form of a sentence within so many quantifiers and 1."""
    terms = [term if isinstance(term, str) else f"v{term + 1}" for term in sentence.parts if isinstance(term, (str, int))]
    parts = [printed(part, depth + (sentence.sort in ("forall", "exists"))) for part in sentence.parts if not terms]
    match sentence.sort:
        case "true" | "false":
            return sentence.sort
        case "atom":
            return f"{sentence.name}({', '.join(terms)})"
        case "=" | "!=":
            return f" {sentence.sort} ".join(terms)
        case "not":
            return f"not {parts[0]}"
        case "forall" | "exists":
            return f"({sentence.sort} v{depth}: {sentence.name} . {parts[0]})"
    return f"({parts[0]} {sentence.sort} {parts[1]})"


class Sentences(unittest.TestCase):
    def test_nodes(self):
        # A quantifier counts its sentence once for each constant, and 1.
        cases = {"true": 1, "not hiv(ann)": 2, "ann = bob -> z()": 3, "forall x: person . hiv(x)": 3,
                 "exists x: person . forall y: ward . lies(x, y) and z()": 1 + 2 * (1 + 3 * 3)}
        for text, nodes in cases.items():
            with self.subTest(text):
                self.assertEqual(nodes_of(SCHEMA, text.encode()), nodes)

    def test_what_they_say(self):
        """Beside the canonical form, which has parentheses around each connective and each quantifier."""
        cases = {
            "true": "true", "z()": "z()", "hiv( ann )": "hiv(ann)", "w1 != w2": "w1 != w2", "not not z()": "not not z()",
            "z() or false and z() or true": "((z() or (false and z())) or true)",
            "z() -> true -> false": "(z() -> (true -> false))", "z() -> true <-> z() or z()":
            "((z() -> true) <-> (z() or z()))", "not z() and z()": "(not z() and z())",
            "exists x: person . forall y: ward . lies(x, y) and x = bob -> hiv(x)":
            "(exists v1: person . (forall v2: ward . ((lies(v1, v2) and v1 = bob) -> hiv(v1))))",
            "forall x: person . hiv(x) and (exists x: ward . lies(ann, x) and (forall ann: person . hiv(ann)))":
            "(forall v1: person . (hiv(v1) and (exists v2: ward . (lies(ann, v2) and (forall v3: person . hiv(v3))))))",
        }
        for text, canonical in cases.items():
            with self.subTest(text):
                self.assertEqual(printed(sentence_of(SCHEMA, text.encode())), canonical)
                self.assertEqual(sentence_of(SCHEMA, canonical.encode()), sentence_of(SCHEMA, text.encode()))

    @program.needed
    def test_they_are_read_as_the_program_reads_them(self):
        asked = list(texts(300))
        ran = program.run("case", given=(SCRIPT + "".join(f"ask {text}\n" for text in asked)).encode())
        replies = ran.stdout.decode().splitlines()
        self.assertEqual(len(replies), len(asked))
        for text, reply in zip(asked, replies):
            with self.subTest(text):
                self.assertEqual(read(text), reply if reply.startswith("error") else "a mark")


DOCUMENTS = [POLICY, """
a.b = 1  # dotted
"x y" = 'q\\z'
c = [1, 0x1F, # within
 ["a", "b\\u00e4\\n"],
]
d = { e = 1_000, f.g = "x" }
m = \"\"\"
one \\
   two "quoted\"\"\"\"
l = '''it's'''
t = true
[s]
[s.t]
x = 0b101
[[u]]
n = 1
[[u.v]]
w = 1
[[u]]
n = 2
""", "", "# nothing\r\na = 1\r\n[b]\r\nc = 'd'\r\n"]


class Documents(unittest.TestCase):
    def test_they_are_read_as_tomllib_reads_them(self):
        for document in DOCUMENTS:
            with self.subTest(document):
                self.assertEqual(plain(tree_of(document)), tomllib.loads(document))

    def test_places(self):
        tree = tree_of('a = 1\n[b]\nc = ["x", "y\\n\\u0041z"]\n')
        found = tree.at("b", "c", 1)
        self.assertEqual(found.value, "y\nAz")
        # The line of c begins at 10; its second string at 20, and its characters behind the quote.
        self.assertEqual((found.start, found.places), (20, [21, 22, 24, 30, 31]))
        self.assertEqual(tree.at("b").keys["c"], (10, 11))

    def test_what_is_no_document(self):
        for document in ("a", "a =", "a = [1", 'a = "b', "[a", "a = 1\na = 2", "a = 1\n[a]"):
            with self.subTest(document):
                self.assertIsNone(tree_of(document))


if __name__ == "__main__":
    unittest.main()
