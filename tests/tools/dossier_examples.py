"""Dossiers of the examples for the tests of cqe-lrat, and what the tool makes of a dossier."""

import functools
import itertools

from dossier_writer import Writer

from cqe_tools import dossiers, lab_examples, lrat_main, refutations
from cqe_tools.dossiers import Dossier, Lines, NoDossier
from cqe_tools.places import Text
from cqe_tools.policies import PolicyFile

NAMES = ("ward", "clinic", "registry", "statistics", "register")

# The first mark of the nurse of the ward: a lie. Its clauses and this refutation were worked out by hand.
FIRST = """dossier 1 nurse lying open
admission
open -
ask no drug(ann)
follows
line : 12 3 11 7 10
end
open -
done 1
"""


@functools.cache
def example(name):
    return lab_examples.load(name)


@functools.cache
def base_and_user(files, name):
    policy = PolicyFile(Text("policy", files.policy))
    schema = policy.schema()
    user = lrat_main.user_of(schema, policy.users()[policy.user_named(name)])
    return dossiers.Base(schema, lrat_main.facts_of(schema, Text("facts", files.facts))), user


def users(files):
    return [user["name"] for user in PolicyFile(Text("policy", files.policy)).users()]


@functools.cache
def written(files, name):
    """The dossier of a user to whom all questions of an example are put."""
    writer = Writer(files.policy, files.facts, name)
    for text in files.questions if writer.standing == "open" else ():
        writer.ask(text)
    return writer


def with_secrets(name):
    """The dossier of a user of the ward who is asked, and gets more secrets."""
    ward = example("ward")
    writer = Writer(ward.policy, ward.facts, name)
    replies = [writer.ask("true"), writer.protect("drug(bob)"), writer.ask("drug(bob) or drug(ann)"),
               writer.protect("not drug(bob)"), writer.protect("hiv(bob) and drug(bob)"), writer.ask("hiv(bob)"),
               writer.protect("true")]
    return writer, replies


@functools.cache
def all_written():
    """Of each user of the examples who is open: the example, his name and his dossier."""
    found = [(example(name), user, written(example(name), user)) for name in NAMES for user in users(example(name))]
    found += [(example("ward"), user, with_secrets(user)[0]) for user in users(example("ward"))]
    return [dossier for dossier in found if dossier[2].standing == "open"]


def pairs_of(files, name, text):
    """The pairs of a dossier; NoDossier where it is refused."""
    return list(Dossier(*base_and_user(files, name), Lines(text.encode())).pairs())


def refusal(files, name, text):
    """The kind and the line with which a dossier is refused; None where it isn't."""
    try:
        pairs_of(files, name, text)
    except NoDossier as refused:
        return refused.kind, refused.line
    return None


def files_of(pair):
    return refutations.files(pair.clauses, pair.variables, pair.lines, ["a comment"])


@functools.cache
def all_files():
    """The pairs of all dossiers of the examples."""
    return [files_of(pair) for files, name, writer in all_written() for pair in pairs_of(files, name, writer.text())]


def drawn(draw):
    """A policy with one user, facts and questions, by chance."""
    atoms = [f"hiv({person})" for person in ("ann", "bob")] + ["lies(ann, w1)", "lies(bob, w2)", "z()"]

    def sentence(depth):
        if depth == 0 or draw.random() < 0.2:
            return draw.choice(atoms + ["true", "ann = bob", "w1 != w2"])
        if draw.random() < 0.3:
            quantifier = draw.choice(["forall", "exists"])
            return f"({quantifier} x: person . {sentence(depth - 1).replace('ann', 'x')})"
        if draw.random() < 0.3:
            return f"not {sentence(depth - 1)}"
        return f"({sentence(depth - 1)} {draw.choice(['and', 'or', '->', '<->'])} {sentence(depth - 1)})"

    secrecies = [sentence(1)] if draw.random() < 0.3 else []
    user = {"method": draw.choice(["lying", "refusal", "combined"]), "know": [sentence(2)], "secrecies": secrecies,
            "secrets": [sentence(1) for _ in range(draw.randint(1, 3))]}
    policy = "\n".join([
        "version = 2", "[domains]", 'person = ["ann", "bob"]', 'ward = ["w1", "w2"]', "[relations]",
        'hiv = ["person"]', 'lies = ["person", "ward"]', "z = []", "[[users]]", 'name = "u"',
        *(f"{key} = {value!r}" for key, value in user.items())]) + "\n"
    facts = "".join(f"{atom}\n" for atom in atoms if draw.random() < 0.5)
    return lab_examples.Files("drawn", policy.encode(), facts.encode(), tuple(sentence(3) for _ in range(6)))


def replaced(writer, number, line):
    """A dossier in which another line stands in the place of one, counted from 0."""
    lines = writer.text().splitlines()
    return joined(lines[:number] + [line] + lines[number + 1:])


def joined(lines):
    return "".join(line + "\n" for line in lines)


def all_facts(schema):
    """All facts of a schema."""
    return [(relation, *constants) for relation, columns in schema.relations.items()
            for constants in itertools.product(*(schema.domains[domain] for domain in columns))]
