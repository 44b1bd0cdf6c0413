"""What cqe-lab loads: the examples, each as a policy, facts and questions to try."""

import re
from dataclasses import dataclass
from pathlib import Path

from . import schemas, scripts
from .checking import Made, written
from .places import Text
from .policies import METHODS

HERE = Path(__file__).resolve()
# In the repository, and below the prefix where the tools are installed.
PLACES = (HERE.parents[2] / "examples", HERE.parents[3] / "doc/cqe/examples")
USERS = re.compile(r"[ \t]*\[\[[ \t]*users[ \t]*\]\]")

# Of each example: its title and its files. A case has one file, the others have a policy, facts and a batch.
EXAMPLES = {
    "ward": ("A ward: three users, one of each method", ("ward.policy", "ward.facts", "ward.batch")),
    "clinic": ("A clinic: one case, tried with each method", ("clinic.case",)),
    "registry": ("A disease registry: one case, tried with each method", ("registry.case",)),
    "hospital": ("The hospital of the tutorial", ("hospital.policy", "hospital.facts", "hospital.batch")),
    "statistics": ("A statistics office: who knows his own figure",
                   ("statistics.policy", "statistics.facts", "statistics.batch")),
    "register": ("A register of blocked addresses: neither yes nor no may be told",
                 ("register.policy", "register.facts", "register.batch")),
}


@dataclass(frozen=True)
class Files:
    """A policy and facts as bytes, and the texts of questions to try over them."""

    title: str
    policy: bytes
    facts: bytes
    questions: tuple = ()
    story: str = ""


def directory():
    """Where the examples lie; None where they don't."""
    return next((place for place in PLACES if place.is_dir()), None)


def found():
    """The names of the examples that are there."""
    place = directory()
    return [name for name, (_, files) in EXAMPLES.items()
            if place is not None and all((place / file).is_file() for file in files)]


def load(name):
    """The files of an example that is there."""
    title, files = EXAMPLES[name]
    texts = [Text.of_file(directory() / file) for file in files]
    if len(texts) == 1:
        return of_case(title, texts[0])
    policy, facts, batch = texts
    return Files(title, policy.data, facts.data, questions_of(batch, "batch"), story_of(policy))


def of_case(title, script):
    """A script of a case as a policy: its one user three times, once with each method, its own one first."""
    case = scripts.CaseScript(script)
    own = case.method_word
    budget = int(scripts.word_and_rest(script.line(case.budget))[1]) if case.budget else schemas.DEFAULT_BUDGET
    users = [Made(method, method, **case.user())
             for method in sorted(METHODS, key=lambda method: method != own)]
    facts = [line for _, line in scripts.numbered(script) if line.startswith(b"fact ")]
    return Files(title, written((case.domains, case.relations), users, budget).encode("ascii"),
                 b"".join(line.removeprefix(b"fact ") + b"\n" for line in facts), questions_of(script, "case"),
                 f"{story_of(script)} The one user of this case stands here three times, once with each method; in the "
                 f"case itself the method is {own}.")


def questions_of(script, sort):
    """The texts that a script asks, each once, in their order."""
    texts = [text.decode("ascii", "replace") for *_, text in scripts.asks(script, sort) if text is not None]
    return tuple(dict.fromkeys(texts))


def story_of(text):
    """The comment at the beginning of a file, up to the first line that is none, as one paragraph."""
    return paragraph(text.data.decode("utf-8", "replace").splitlines())


def paragraph(lines):
    """The first lines that are comments, joined."""
    said = []
    for line in lines:
        if not line.startswith("#"):
            break
        said.append(line.lstrip("#").strip())
    return " ".join(part for part in said if part)


def stories_of_users(source):
    """Of each line [[users]] of a policy the comment that stands directly above it."""
    lines = source.splitlines()
    heads = [number for number, line in enumerate(lines) if USERS.match(line)]
    return [paragraph(reversed(comment_above(lines, head))) for head in heads]


def comment_above(lines, head):
    """The comment's lines that stand directly above a line, the last one first."""
    above = []
    while head > 0 and lines[head - 1].startswith("#"):
        head -= 1
        above.append(lines[head])
    return above
