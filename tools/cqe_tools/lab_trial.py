"""A copy of a policy and facts with journals of its own: what was said over it, and why that gives nothing away.

Each answer here is an object that the page shows. A user asks a question or lists for whom one holds, and an operator
adds a secret; each is a step of the user, with the lines of the reply to it.
"""

import hashlib
import secrets
import threading
from dataclasses import dataclass
from itertools import groupby
from pathlib import Path
from tempfile import TemporaryDirectory

from . import facts, replies, schemas
from .checking import NOTHING, Check, Made, Refusal, Unusable, truths, worlds_of, written
from .explaining import Context, Explainer
from .lab_examples import stories_of_users
from .places import Finding, Text, visible
from .policies import PolicyFile, all_secrets
from .sentences import openings

MARKS = ("yes", "no", "refused", "undecided")
OF_THE_MACHINE = ("error 40", "error 41", "error 50")  # faults, of which another database says nothing
MISTAKES = (20, 26, 28)  # of what was typed, so the same for each user
ENDS_OF_BATCH = (0, 10, 11)  # with these statuses each ask has a reply
ASK, LIST, PROTECT = "ask", "list", "protect"
VARIABLES = ("x", "y", "z", "u", "v", "w")
MOST_FACTS = 1000  # of a list of facts so many are shown at most
MOST_ROWS = 200  # and so many replies beside each other


class Explained(Exception):
    """What the program refuses, as the page shows it."""

    def __init__(self, shown):
        super().__init__(shown)
        self.shown = shown


@dataclass(frozen=True)
class Said:
    """One line of a user: a question, a list of the first so many quantifiers of one, or a secret to be added."""

    sort: str
    text: str
    count: int = 0

    def line(self, name):
        """Its line in a batch, or of a list in a session; the text has no line feed."""
        before = {ASK: f"{name} 1 ask ", LIST: f"list {self.count} ", PROTECT: f"{name} op protect "}[self.sort]
        return before.encode("ascii") + bytes_of(self.text)

    def shown(self):
        """As the page names it."""
        before = {ASK: "", LIST: f"list {self.count} ", PROTECT: "op protect "}[self.sort]
        return before + visible(bytes_of(self.text))


@dataclass(frozen=True)
class Told:
    """What was said, the lines of the reply, and how long the user's journal was behind it."""

    said: Said
    reply: tuple
    journal: int


class Trial:
    """A copy of files in a directory that is made for it; Explained where the program refuses one."""

    def __init__(self, asker_for, place, files):
        self.asker_for = asker_for  # makes an asker over a facts file, with a directory to work in
        self.place = Path(place)
        self.place.mkdir()
        self.files = files
        self.asker = asker_for(self.file("facts", files.facts), self.place)
        self.lock = threading.Lock()
        self.context = Context(self.file("policy", files.policy), str(self.place / "facts"))
        self.read_policy()
        self.users = {user["name"]: user for user in self.context.policy.users()}
        self.declarations = self.context.policy.declarations()
        self.phrase = secrets.token_hex(16)  # of each user, so that the lab can log in as he
        self.policy = self.file("policy.copy", self.with_tokens().encode("ascii"))
        self.journals = self.asker.journals_for(self.policy)
        self.told = {name: [] for name in self.users}
        self.facts = self.real_facts()

    def file(self, name, content):
        path = self.place / name
        path.write_bytes(content)
        return str(path)

    def read_policy(self):
        """Lets the program read the files."""
        try:
            self.asker.journals_for(self.context.policy_name)
        except Refusal as refusal:
            raise self.explain(refusal, self.context) from refusal
        if self.context.policy is None or self.context.policy.root is None:
            raise Unusable("the program reads this policy, and the lab can't: write it in plain TOML 1.0, as "
                           "examples/ward.policy")

    def with_tokens(self):
        """The policy as it was read, with a token of the lab for each user."""
        return written(self.declarations, [
            Made(name, user["method"], user.get("know", []), user.get("secrets", []), user.get("secrecies", []),
                 budget_of(user), token_of(self.phrase)) for name, user in self.users.items()])

    def explain(self, refusal, context):
        """What is to be shown where the program refuses a file or a script."""
        if not refusal.complaints:
            return Unusable("the program ended early, and said nothing")
        explainer = Explainer(context)
        others = [Finding(line, "This is no complaint of the program's formats.")
                  for line in refusal.complaints if not explainer.take(line)]
        return Explained([self.explained(finding) for finding in
                          [*(finding for finding, _ in explainer.findings()), *others]])

    def real_facts(self):
        """The facts in canonical form, each once, in the order of the file."""
        schema = self.context.policy.schema()
        lines = (line.rstrip(b"\r\n") for line in self.context.facts.lines())
        return list(dict.fromkeys(canonical(facts.atom(schema, line)) for line in lines if not facts.is_silent(line)))

    # What there is.

    def shown(self):
        """What there is, for the page: the schema, the facts, the users, the files."""
        domains, relations = self.declarations
        return {
            "title": self.files.title, "story": self.files.story, "questions": list(self.files.questions),
            "domains": [{"name": name, "constants": constants} for name, constants in domains],
            "relations": [{"name": name, "columns": columns} for name, columns in relations],
            "lists": self.lists(), "facts": counted(self.facts), "users": self.shown_users(),
            "policy_text": self.files.policy.decode("utf-8", "replace"),
            "facts_text": self.files.facts.decode("utf-8", "replace"),
        }

    def shown_users(self):
        stories = stories_of_users(self.context.policy.source)
        stories += [""] * (len(self.users) - len(stories))
        with self.lock:
            standings = Check(self.asker, PolicyFile.of_file(self.policy)).standings(self.journals)
        return [{
            "name": user["name"], "method": user["method"],
            **{key: user.get(key, []) for key in ("know", "secrets", "secrecies")}, "added": [],
            "budget": budget_of(user), "is_open": standing.is_open, "reasons": standing.reasons,
            "notes": standing.notes, "story": story,
        } for standing, user, story in zip(standings, self.users.values(), stories)]

    def lists(self):
        """Questions that can be listed, one of each relation that has columns."""
        schema = self.context.policy.schema()
        if any(name in VARIABLES for name in schema.names()):
            return []
        return ["".join(f"exists {variable}: {domain} . " for variable, domain in zip(VARIABLES, columns))
                + f"{name}({', '.join(VARIABLES[:len(columns)])})"
                for name, columns in self.declarations[1] if columns and schema.size(columns[0]) <= schemas.INSTANCES]

    # What is said of users, and the replies.

    def ask(self, names, text):
        """The same question of some users: the reply to each, and what the truth is."""
        return self.take(names, Said(ASK, text))

    def list(self, names, count, text):
        """The same list of some users, each in a session of his own: a row for each instance."""
        return self.take(names, Said(LIST, text, count))

    def protect(self, names, text):
        """The same secret added to some users, and the secrets that were added to each by now."""
        shown = self.take(names, Said(PROTECT, text))
        with self.lock:
            return {**shown, "added": {name: added_in(self.audit(self.asker, self.journals, name)) for name in names}}

    def take(self, names, said):
        """What the same line of some users is answered, and what the truth is."""
        with self.lock:
            heard = self.hear(self.asker, self.policy, self.journals, [(name, said) for name in names])
            for name, reply in zip(names, heard):
                self.told[name].append(Told(said, reply, (Path(self.journals) / f"{name}.log").stat().st_size))
            numbers = [len(self.told[name]) for name in names]
        truth = self.truth(said, heard)
        return {
            "sort": said.sort, "text": said.shown(), "truth": truth if said.sort != LIST else None,
            "columns": columns_of(said) if said.sort == LIST else None,
            "replies": [self.reply(name, number, self.told[name][number - 1], truth)
                        for name, number in zip(names, numbers)],
        }

    def hear(self, asker, policy, journals, items):
        """The lines of the reply to each pair of a user and what is said, in their order."""
        result = []
        for is_list, part in groupby(items, key=lambda item: item[1].sort == LIST):
            lines = [(name, said.line(name)) for name, said in part]
            result += asker.listed(policy, journals, self.phrase, lines) if is_list else [
                [reply] for reply in self.batch(asker, policy, journals, [line for _, line in lines])]
        return [tuple(lines) for lines in result]

    def batch(self, asker, policy, journals, lines):
        """The replies to the lines of a script; Explained where the program refuses it."""
        script = b"".join(line + b"\n" for line in lines)
        run = asker.call("batch", policy, journals, given=script)
        complaints = run.stderr.decode("utf-8", "replace").splitlines()
        if run.returncode not in ENDS_OF_BATCH:
            written_as = Text("the line of a batch", script)
            raise self.explain(Refusal(complaints), Context(policy, asker.facts, written_as, sort="batch"))
        said = [line.split(" ", 2)[2] for line in run.stdout.decode("ascii", "replace").splitlines()]
        if len(said) != len(lines):
            raise Unusable(f"the program answered {len(said)} of {len(lines)} lines: {' '.join(complaints)}")
        return said

    def truth(self, said, heard):
        """The reply of the program to one from whom nothing is hidden; None where he isn't asked or can't be. Of a list
        it has the reply to each instance, by its names."""
        if any(is_mistake(reply[-1]) for reply in heard):
            return None
        with TemporaryDirectory(dir=self.place) as place:
            asker = self.asker_for(self.asker.facts, place)
            try:
                if said.sort == LIST:
                    return self.truth_of_list(asker, Path(place), said)
                return truths(asker, self.declarations, [said.text]).get(said.text)
            except (Unusable, Explained):
                return None

    def truth_of_list(self, asker, place, said):
        policy = place / "policy"
        made = Made("t", "lying", [], [NOTHING], token=token_of(self.phrase))
        policy.write_text(written(self.declarations, [made]), encoding="ascii")
        (lines,) = asker.listed(str(policy), asker.journals_for(str(policy)), self.phrase, [("t", said.line("t"))])
        return {names: reply for names, reply in instances(said, lines) if names}

    def reply(self, name, number, told, truth):
        """A reply as the page shows it."""
        rows = instances(told.said, told.reply) if told.said.sort == LIST else []
        last = told.reply[-1]
        shown = {
            "user": name, "number": number, "reply": last, "is_mistake": is_mistake(last),
            "has_why": any(reply in (*MARKS, "protected", "unsafe") for reply in (last, *(reply for _, reply in rows))),
            "budget": budget_of(self.users[name]), "explained": [],
        }
        if told.said.sort == LIST:
            truth = truth or {}
            shown["rows"] = [{"names": names, "reply": reply, "truth": truth.get(names)} for names, reply in rows]
        codes = dict.fromkeys(reply for reply in (*(reply for _, reply in rows), last) if replies.CODE.match(reply))
        shown["explained"] = [self.explained(self.meaning(name, told.said, code, code == last)) for code in codes]
        return shown

    def meaning(self, name, said, reply, is_whole):
        """What a reply `error N` means: to all that was said, or to one instance of a list."""
        code, kind, place = (int(number) if number else None for number in replies.CODE.match(reply).groups())
        text, line = bytes_of(said.text), said.line(name)
        asked = replies.Asked(name)
        if is_whole and said.sort == LIST:
            asked = replies.Asked(name, text, Text("the list", line), len(line) - len(text), line)
        elif is_whole:
            asked = replies.Asked(name, text, Text("the question", text))
        return replies.explain(reply, code, kind, place, asked, self.context)

    def explained(self, finding):
        """An explanation in its parts; files are named without the directory."""
        drawn = finding.spot.drawn() if finding.spot is not None else None
        return {
            "said": visible(finding.said.encode("utf-8", "surrogateescape")), "meaning": finding.meaning,
            "place": drawn[0].removeprefix(f"{self.place}/") if drawn else None,
            "drawn": drawn[1:] if drawn else None, "more": list(finding.more), "advice": finding.advice,
        }

    # Why a reply tells nothing.

    def why(self, name, number):
        """The other databases that the program names behind a user's step of this number: of each secret one in which
        it is false, and of each secrecy one in which it is true and one in which it is false. Of a secret that wasn't
        safe, from what he can conclude it."""
        told = self.told[name][:number]
        if len(told) < number or number < 1:
            raise Unusable("there is no such reply")
        with TemporaryDirectory(dir=self.place) as place:
            audit = self.audit_behind(Path(place), name, told[-1])
            shown = {"user": name, "number": number, "standing": audit["standing"], "late": None,
                     "is_liar": self.users[name]["method"] == "lying", "spent": [], "worlds": []}
            if told[-1].reply == ("unsafe",):
                asker = self.asker_for(self.asker.facts, place)
                return {**shown, "late": self.late(Check(asker, self.context.policy), name, audit, told[-1].said.text)}
            sought = self.sought(name, audit)
            worlds = dict.fromkeys(tuple(world) for _, world in sought if world is not None)
            return {
                **shown, "spent": [sentence for sentence, world in sought if world is None],
                "worlds": [self.other(Path(place), which, name, told, world,
                                      [sentence for sentence, its in sought if its is not None and tuple(its) == world])
                           for which, world in enumerate(worlds)],
            }

    def sought(self, name, audit):
        """What is sought of other databases, each with the one of the audit: a sentence as the policy has it, or as the
        audit has one that was added, and what it has to be there, yes or no."""
        user = self.users[name]
        texts = [text for secrecy in user.get("secrecies", []) for text in (secrecy, secrecy)] + user.get("secrets", [])
        found = worlds_of(audit)
        texts += [sentence for sentence, _, _ in found[len(texts):]]
        return [({"text": text, "wanted": "yes" if is_true else "no"}, world)
                for text, (_, is_true, world) in zip(texts, found)]

    def audit_behind(self, place, name, last):
        """The audit of a user over his journal as it was: it only grows, and there a byte 0 ended it."""
        journals = place / "journals"
        journals.mkdir()
        with open(Path(self.journals) / f"{name}.log", "rb") as journal:
            (journals / f"{name}.log").write_bytes(journal.read(last.journal - 1) + b"\0")
        return self.audit(self.asker, str(journals), name)

    def audit(self, asker, journals, name):
        return asker.audit(self.policy, journals, name)

    def late(self, check, name, audit, text):
        """From what a user can conclude a secret that wasn't safe: the program is asked of a made-up one, who knows the
        same and what the replies said. Of a liar it may be that one of all his secrets is true."""
        user = self.users[name]
        sources = [{"text": known, "mark": None} for known in user.get("know", [])]
        sources += [{"text": entry["query"], "mark": entry["mark"]} for entry in audit["entries"]
                    if entry.get("mark") in ("yes", "no")]
        known = [f"not ({one['text']})" if one["mark"] == "no" else one["text"] for one in sources]
        hidden = [*(all_secrets(user) + added_in(audit) if user["method"] == "lying" else []), text]
        found = check.entailed([(known, hidden)])[0]
        fewest = None
        if found == "yes":
            hidden = [hidden[number] for number in check.fewest_hidden(known, hidden, range(len(hidden) - 1))]
            fewest = check.fewest_known(known, hidden)
        return {"found": found, "is_fewest": fewest is not None, "secret": visible(bytes_of(text)),
                "from": sources if fewest is None else [sources[number] for number in fewest], "beside": hidden[:-1]}

    def other(self, place, which, name, told, world, sought):
        """One other database: in which facts it differs, and what the program says over it."""
        directory = place / f"world{which}"
        directory.mkdir()
        stated = directory / "facts"
        stated.write_text("".join(f"{fact}\n" for fact in world), encoding="ascii")
        asker = self.asker_for(str(stated), directory)
        compared = [one for one in told if not any(is_of_the_machine(one, line) for line in one.reply)]
        there = self.hear(asker, self.policy, asker.journals_for(self.policy), [(name, one.said) for one in compared])
        know = self.users[name].get("know", [])
        true_there = truths(asker, self.declarations, [*(one["text"] for one in sought), *know])
        added = sum(one.said.sort == PROTECT for one in compared)
        return {
            "secrets": [{**one, "truth": true_there.get(one["text"])} for one in sought],
            "know": [{"text": text, "wanted": "yes", "truth": true_there.get(text)} for text in know],
            **differences(self.facts, world), "added": added, "questions": len(compared) - added,
            "is_same": there == [one.reply for one in compared],
            "rows": [row for one, reply in zip(compared, there) for row in beside(one, reply)][-MOST_ROWS:],
        }


def token_of(phrase):
    """The token of a policy for a pass phrase."""
    return hashlib.sha256(phrase.encode("ascii")).hexdigest()


def bytes_of(text):
    """A question's bytes; half a character, which has none, is written out."""
    return text.encode("utf-8", "backslashreplace")


def is_mistake(reply):
    """Whether a reply is to a mistake in what was typed."""
    match = replies.CODE.match(reply)
    return match is not None and int(match[1]) in MISTAKES


def is_of_the_machine(told, line):
    """Whether a line of a reply tells of a fault of the machine."""
    reply = line.split(" ", told.said.count)[-1] if told.said.sort == LIST else line
    return line in OF_THE_MACHINE or reply in OF_THE_MACHINE


def instances(said, lines):
    """Of each instance of a list its names and the reply to it; the names are wanting where there was no memory."""
    rows = []
    for line in lines[:-1]:
        *names, reply = line.split(" ", said.count) if line not in OF_THE_MACHINE else [line]
        rows.append((tuple(names), reply))
    return rows


def columns_of(said):
    """What heads the columns of a list: each variable with its domain."""
    found = openings(bytes_of(said.text))
    return [f"{one.variable}: {one.domain}" for one in found[:said.count]] if len(found) >= said.count else [
        str(number) for number in range(1, said.count + 1)]


def beside(told, reply):
    """The lines of a reply beside those over another database."""
    rows = [(told.said.shown(), told.reply[-1], reply[-1])]
    if told.said.sort == LIST and len(told.reply) == len(reply):
        rows = [(f"{' '.join(names)}: {told.said.shown()}", here, there) for (names, here), (_, there)
                in zip(instances(told.said, told.reply), instances(told.said, reply))] or rows
    return [{"text": text, "here": here, "there": there} for text, here, there in rows]


def added_in(audit):
    """The secrets that were added to a user, by his audit."""
    return [entry["protect"] for entry in audit["entries"] if "protect" in entry]


def canonical(atom):
    """A fact as the program prints it."""
    relation, *constants = atom
    return f"{relation}({', '.join(constants)})"


def counted(items):
    """The beginning of a list, and how many items it has."""
    return {"items": list(items[:MOST_FACTS]), "count": len(items)}


def differences(real, other):
    """Which facts stand in the real database alone, in the other one alone, and in both."""
    in_real, in_other = set(real), set(other)
    return {
        "here_alone": counted([fact for fact in real if fact not in in_other]),
        "there_alone": counted([fact for fact in other if fact not in in_real]),
        "in_both": counted([fact for fact in real if fact in in_other]),
    }


def budget_of(user):
    return user.get("budget", schemas.DEFAULT_BUDGET)
