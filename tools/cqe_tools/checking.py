"""What a policy will do: asked of the program itself, over the same facts and journals in a temporary directory.

Where a user is closed, made-up users over the same schema and facts are asked why: each has what he knows and a part
of his secrets. No censor is computed here.

Made-up users stand in a policy, not in a script of `case`: there a domain has to fit into a line of 4,096 bytes, and
the facts into 100,000 lines.
"""

import json
import os
import subprocess
import tempfile
from dataclasses import dataclass, field
from pathlib import Path
from typing import NamedTuple

from . import schemas
from .policies import all_secrets, secret_nodes, view_nodes
from .sentences import nodes_of

NOTHING = "false"  # the secret of a user from whom nothing is to be hidden
MOST_TAKEN_OUT = 64  # of more sentences it isn't asked which of them could be left out


class Unusable(Exception):
    """The program can't be asked: it isn't there, or it failed for another cause than the files."""


class Refusal(Exception):
    """The program refuses a file: its complaints."""

    def __init__(self, complaints):
        super().__init__(complaints)
        self.complaints = complaints


def program(here):
    """The program: that of the environment variable CQE, the built one, one beside the tools, or that of the path."""
    named = os.environ.get("CQE")
    places = [Path(named)] if named else [here.parent / "crates/cqe/out/cqe", here / "cqe"]
    if not named:
        places += [Path(directory) / "cqe" for directory in os.environ.get("PATH", "").split(os.pathsep)]
    for place in places:
        if os.path.isfile(place) and os.access(place, os.X_OK):  # is_file raises where a directory can't be looked into
            return str(place.resolve())
    if named:
        raise Unusable(f"the environment variable CQE names {named}, and there is no program")
    raise Unusable("there is no program cqe: name it by the environment variable CQE, or build it by ./cqe")


class Asker:
    """Calls of the program over one facts file."""

    def __init__(self, path, facts, directory):
        self.path = path
        self.facts = os.path.abspath(facts)
        self.directory = directory
        self.made = 0

    def call(self, command, policy, journals, *more, given=b""):
        words = [self.path, command, "--policy", policy, "--facts", self.facts, "--journals", journals, *more]
        try:
            return self.run(words, given)
        except OSError as error:
            raise Unusable(f"{self.path} can't be started: {error.strerror}") from error

    def run(self, words, given):
        return subprocess.run(words, input=given, capture_output=True)

    def journals_for(self, policy):
        """A directory of new journals for a policy; Refusal where the program refuses a file."""
        self.made += 1
        journals = os.path.join(self.directory, f"journals{self.made}")
        os.mkdir(journals)
        run = self.call("init", policy, journals)
        if run.returncode != 0:
            raise Refusal(run.stderr.decode("utf-8", "surrogateescape").splitlines())
        return journals

    def audit(self, policy, journals, name):
        """What the program says of a user, as the object of its audit."""
        run = self.call("audit", policy, journals, "--user", name, "--json")
        if run.returncode != 0:
            raise Unusable(f"the audit of {name} ends with status {run.returncode}: "
                           f"{run.stderr.decode('utf-8', 'replace').strip()}")
        return json.loads(run.stdout)

    def replies(self, declarations, users, asks):
        """The replies to asks, pairs of a user and a text, over a policy of made-up users."""
        policy = os.path.join(self.directory, f"made{self.made}.policy")
        with open(policy, "w", encoding="ascii") as file:
            file.write(written(declarations, users))
        try:
            journals = self.journals_for(policy)
        except Refusal as refusal:
            raise Unusable(f"the program refuses the made-up users: {' '.join(refusal.complaints)}") from refusal
        script = "".join(f"{user} 1 ask {text}\n" for user, text in asks)
        run = self.call("batch", policy, journals, given=script.encode("ascii"))
        lines = run.stdout.decode("ascii", "replace").splitlines()
        if run.returncode != 0 or len(lines) != len(asks):
            raise Unusable(f"a batch of made-up users ends with status {run.returncode}: "
                           f"{run.stderr.decode('utf-8', 'replace').strip()}")
        return [line.split(" ", 2)[2] for line in lines]


class Made(NamedTuple):
    """A user as a policy that is written here has him; without a budget he has that of the policy."""

    name: str
    method: str
    know: list
    secrets: list
    secrecies: list = []
    budget: int | None = None
    token: str | None = None


def written(declarations, users, budget=schemas.BUDGET):
    """A policy as TOML: the same domains and relations, and these users, with this budget where they have none."""
    keeps_secrecies = any(made.secrecies for made in users)
    lines = [f"version = {2 if keeps_secrecies else 1}", "", "[domains]"]
    lines += [f"{name} = {json.dumps(constants)}" for name, constants in declarations[0]]
    lines += ["", "[relations]"]
    lines += [f"{name} = {json.dumps(columns)}" for name, columns in declarations[1]]
    for made in users:
        lines += ["", "[[users]]", f'name = "{made.name}"', f'method = "{made.method}"',
                  f"know = {json.dumps(made.know)}", f"secrets = {json.dumps(made.secrets)}"]
        lines += [f"secrecies = {json.dumps(made.secrecies)}"] if made.secrecies else []
        lines += [f"budget = {budget if made.budget is None else made.budget}"]
        lines += [f'token = "{made.token}"'] if made.token else []
    return "\n".join(lines) + "\n"


def truths(asker, declarations, texts):
    """Of each text the reply to it where nothing is hidden; a text that doesn't fit into a line of a batch is left out.

    Each text has a made-up user of its own, since answers stay in the view: no history makes a later search dearer.
    """
    texts = [text for text in dict.fromkeys(texts)
             if text.isascii() and len(f"t{schemas.USERS} 1 ask {text}") <= schemas.TEXT_BYTES]
    result = {}
    for begin in range(0, len(texts), schemas.USERS):
        part = texts[begin:begin + schemas.USERS]
        made = [Made(f"t{number}", "lying", [], [NOTHING]) for number in range(len(part))]
        asks = [(f"t{number}", text) for number, text in enumerate(part)]
        result.update(zip(part, asker.replies(declarations, made, asks)))
    return result


@dataclass
class Standing:
    """What the program will do with one user."""

    number: int
    user: dict
    is_open: bool
    reasons: list = field(default_factory=list)
    notes: list = field(default_factory=list)
    contradicted: list = field(default_factory=list)  # the numbers of what he knows that the facts contradict
    sizes: dict = field(default_factory=dict)

    @property
    def name(self):
        return self.user["name"]


class Check:
    """The check of a policy that the program accepted."""

    def __init__(self, asker, policy):
        self.asker = asker
        self.policy = policy
        self.schema = policy.schema()
        self.declarations = policy.declarations()
        self.truths = {}  # of each sentence that somebody knows: the reply to it where nothing is hidden

    def standings(self, journals):
        """The standing of each user, in the order of the policy."""
        users = self.policy.users()
        self.learn_truths(users)
        return [self.standing(number, user, journals) for number, user in enumerate(users)]

    def learn_truths(self, users):
        """Asks each known sentence of a user who has nothing to hide."""
        self.truths = truths(self.asker, self.declarations, [text for user in users for text in user.get("know", [])])

    def standing(self, number, user, journals):
        told = self.asker.audit(self.policy.text.name, journals, user["name"])
        result = Standing(number, user, told["standing"] == "open")
        know = user.get("know", [])
        result.contradicted = [index for index, text in enumerate(know) if self.truths.get(text) == "no"]
        result.sizes = self.sizes(user, told)
        self.note_truths(result, know)
        result.notes += [f"the search for a world with{'' if wanted else 'out'} {text} needs more than "
                         f"{schemas.BUDGET:,}" for text, wanted, world in worlds_of(told) if world is None]
        if not result.is_open:
            result.reasons = self.reasons(user, result)
        return result

    def note_truths(self, result, know):
        for index, text in enumerate(know):
            truth = self.truths.get(text)
            if truth == "no":
                effect = ("so he is closed" if result.user["method"] == "refusal" else "and his answers agree with it, "
                          "also where the facts don't")
                result.notes.append(f"know[{index}] is false in the facts, {effect}: {text}")
            elif truth is None:
                result.notes.append(f"know[{index}] is too long for a question, so whether the facts contradict it "
                                    f"wasn't asked")
            elif truth != "yes":
                result.notes.append(f"whether the facts contradict know[{index}] needs more than {schemas.BUDGET:,}: "
                                    f"{text}")

    def sizes(self, user, told):
        known = [nodes_of(self.schema, text.encode()) for text in user.get("know", [])]
        secrets = secret_nodes(self.schema, user)
        return {
            "sentence": max(known + secrets), "view": view_nodes(self.schema, user), "know": len(known),
            "secrets": len(secrets), "answers": len(told["entries"]),
        }

    def entailed(self, groups):
        """Of each pair of what is known and of sentences: whether the known entails that one of these is true.

        The answer is 'yes', 'no' or 'spent', and None where it can't be asked. A made-up liar knows the same, but where
        the new relation `free` holds, and hides the same, but where it holds. So nothing is entailed, and he is closed
        only where a search is spent. The facts haven't `free`. Asked whether it doesn't hold he is told the truth, yes,
        unless that entails what he hides.
        """
        free = next((name for name in ("free", *(f"free{number}" for number in range(200)))
                     if name not in self.schema.names()), None)
        relations = [*self.declarations[1], (free, [])]
        if len(relations) > schemas.RELATIONS:
            return [None] * len(groups)
        result = []
        for begin in range(0, len(groups), schemas.USERS):
            part = groups[begin:begin + schemas.USERS]
            made = [Made(f"u{number}", "lying", [f"{free}() or ({text})" for text in know],
                         [f"not {free}() and ({text})" for text in hidden])
                    for number, (know, hidden) in enumerate(part)]
            try:
                replies = self.asker.replies((self.declarations[0], relations), made,
                                             [(f"u{number}", f"not {free}()") for number in range(len(part))])
            except Unusable:  # with the few bytes and nodes more a sentence passes a limit
                return [None] * len(groups)
            result += [{"no": "yes", "yes": "no"}.get(reply, "spent") for reply in replies]
        return result

    def reasons(self, user, standing):
        """Why a user is closed, in the order of the tests of admission."""
        know, secrets, named = user.get("know", []), all_secrets(user), names_of_secrets(user)
        if user["method"] == "lying" and user.get("secrecies"):
            return ["a liar can keep no secrecy, since he would have to deny a sentence and its negation: "
                    + ", ".join(f"secrecies[{index}] {text}" for index, text in enumerate(user["secrecies"]))]
        if user["method"] == "refusal" and standing.contradicted:
            return [f"the facts contradict what he knows, and refusal wants all of it to be true: know[{index}] is "
                    f"{know[index]}"
                    for index in standing.contradicted]
        absurd, *single = self.entailed([(know, [NOTHING])] + [(know, [secret]) for secret in secrets])
        if absurd == "yes":
            return ["what he knows contradicts itself, so it entails every secret"]
        result = [f"what he knows entails {name}: {secret}"
                  for name, secret, found in zip(named, secrets, single) if found == "yes"]
        if not result and user["method"] == "lying" and len(secrets) > 1:
            result = self.of_several(know, secrets)
        if not result:
            result = [f"{name} costs too much to test, the search needs more than {schemas.BUDGET:,}: {secret}"
                      for name, secret, found in zip(named, secrets, single) if found == "spent"]
        return result or [f"the search of the admission needs more than {schemas.BUDGET:,}" if None not in single else
                          f"what he knows entails a secret (for lying: that one of them is true), or the test of it "
                          f"needs more than {schemas.BUDGET:,}"]

    def of_several(self, know, secrets):
        """Of a liar none of whose secrets is entailed alone: the fewest that are together, by taking out one by one."""
        found = self.entailed([(know, secrets)])[0]
        if found == "spent":
            return [f"whether what he knows entails that one of his secrets is true costs too much to test: the search "
                    f"needs more than {schemas.BUDGET:,}"]
        if found != "yes":
            return []
        kept = self.fewest_hidden(know, secrets, range(len(secrets)))
        names = ", ".join(f"secrets[{index}] {secrets[index]}" for index in kept)
        return [f"what he knows entails that one of these is true, though not which, and a liar has to be able to deny "
                f"all of them: {names}"]


    def fewest_hidden(self, know, hidden, numbers):
        """The numbers of the fewest sentences one of which what is known entails to be true: those of these numbers are
        taken out one by one, where without the one this is still so."""
        kept = list(range(len(hidden)))
        for number in numbers:
            fewer = [other for other in kept if other != number]
            if fewer and self.entailed([(know, [hidden[other] for other in fewer])])[0] == "yes":
                kept = fewer
        return kept

    def fewest_known(self, know, hidden):
        """The numbers of the fewest known sentences that still entail that one of the hidden is true; later ones are
        left out first. None where there are too many to ask for each."""
        if len(know) > MOST_TAKEN_OUT:
            return None
        kept = list(range(len(know)))
        found = self.entailed([([know[other] for other in kept if other != number], hidden) for number in kept])
        needed = [number for number in kept if found[number] != "yes"]
        if self.entailed([([know[number] for number in needed], hidden)])[0] == "yes":
            return needed
        for number in reversed([number for number in kept if number not in needed]):
            fewer = [other for other in kept if other != number]
            if self.entailed([([know[other] for other in fewer], hidden)])[0] == "yes":
                kept = fewer
        return kept


def names_of_secrets(user):
    """How a reader finds each of all the secrets of a user in the policy."""
    both = [name for index in range(len(user.get("secrecies", [])))
            for name in (f"secrecies[{index}]", f"the negation of secrecies[{index}]")]
    return both + [f"secrets[{index}]" for index in range(len(user.get("secrets", [])))]


def worlds_of(told):
    """What an audit says of other worlds: each sentence, whether it is true there, and the world, None where spent."""
    result = []
    for secrecy in told.get("secrecies", []):
        result += [(secrecy["secrecy"], True, secrecy["true"]), (secrecy["secrecy"], False, secrecy["false"])]
    return result + [(secret["secret"], False, secret["world"]) for secret in told["secrets"]]


def in_temporary_directory(path, policy, facts, do):
    """What `do` answers for an asker and new journals."""
    with tempfile.TemporaryDirectory(prefix="cqe-check.") as directory:
        asker = Asker(path, facts, directory)
        return do(asker, asker.journals_for(policy))
