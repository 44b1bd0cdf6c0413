"""The lines that the program said, one after the other, and the explanation of each."""

import re
from functools import cached_property

from . import facts, journals, policies, refused_dossiers, replies, scripts, surroundings, words
from .places import Finding, Text, quoted
from .policies import PolicyFile

COMPLAINT = "cqe: "
MOST_SHOWN = 200
PARTS = re.compile(r"(policy|facts|script|missing|journal|dossier) (.*)", re.S)

STATUSES = {
    0: "All is done, and each ask was answered.",
    1: "This isn't a status of the program itself: ./cqe ends so where it can't be built, and cqe-check where a user "
    "is closed.",
    2: "The words have no reading, or --user names a user whom the policy hasn't (cqe: usage).",
    3: "The policy is refused (cqe: policy KIND PLACE); nothing was opened.",
    4: "The facts are refused (cqe: facts KIND LINE); nothing was opened.",
    5: "The script is refused (cqe: script KIND LINE); no ask was answered.",
    6: "Standard input couldn't be read (cqe: read fault); nothing was answered.",
    7: "Standard output couldn't be written (cqe: write fault); a beginning of the replies was.",
    8: "The policy file or the facts file isn't there (cqe: missing NAME).",
    9: "A file or the directory of the journals couldn't be opened, or another process works on a journal (cqe: shelf "
    "fault).",
    10: "A user's journal was refused (cqe: journal NAME CAUSE), or isn't empty where one would be moved to; batch and "
    "serve served the others, and standby copied them.",
    11: "A write or a sync of a journal failed, or a standby didn't answer for a record (cqe: disk fault).",
    12: "The server or the standby couldn't listen at its address, or take in a client (cqe: links fault).",
    13: "Memory was wanting (cqe: out of memory).",
    14: "The dossier is refused (cqe: dossier KIND LINE): it doesn't show what it says.",
}
STATUS_ADVICE = "the line on standard error says more: give it to cqe-explain, with --policy, --facts and --script"


class Context:
    """The files and words of a run, as far as they are known."""

    def __init__(self, policy=None, facts=None, script=None, journals=None, listen=None, words=None, sort=None,
                 to=None, dossier=None):
        self.policy_name = policy
        self.facts_name = facts
        self.journals = journals
        self.to = to
        self.listen = listen
        self.words = words
        self.dossier = dossier
        self.policy = PolicyFile.of_file(policy)
        self.facts = Text.of_file(facts) if facts is not None else None
        self.script = script if isinstance(script, Text) or script is None else Text.of_file(script)
        self.sort = sort or (scripts.sort_of(self.script) if self.script else None)

    @cached_property
    def schema(self):
        """The schema of the questions; None where it isn't known."""
        if self.sort == "case" and self.script is not None:
            return scripts.CaseScript(self.script).schema()
        return self.policy.schema() if self.policy is not None and self.policy.root is not None else None


def of_complaint(line, context):
    """The explanation of a complaint; the line has no end."""
    text = line[len(COMPLAINT):]
    plain = {
        "usage": lambda: usage(line, context), "read fault": lambda: surroundings.read_fault(line, context),
        "write fault": lambda: surroundings.write_fault(line, context),
        "shelf fault": lambda: surroundings.shelf(line, context),
        "disk fault": lambda: surroundings.disk_fault(line, context),
        "links fault": lambda: surroundings.links(line, context.listen),
        "out of memory": lambda: surroundings.memory(line, context),
    }.get(text)
    if plain:
        return plain()
    match = PARTS.fullmatch(text)
    found = of_parts(line, match[1], match[2], context) if match else None
    return found or Finding(line, "This is no complaint of the program's formats.", None,
                            "see whether the tools and the program are of one version")


def of_parts(line, what, rest, context):
    """The explanation of a complaint with parts; None where they don't fit."""
    if what == "missing":
        return surroundings.missing(line, rest)
    if what == "journal":
        name, _, cause = rest.partition(" ")
        return journals.explain(line, name, cause, context)
    kind, _, place = rest.partition(" ")
    if not kind.isdigit():
        return None
    if what == "policy":
        return policies.explain(line, int(kind), place, context.policy)
    if not place.isdigit():
        return None
    if what == "facts":
        return facts.explain(line, int(kind), int(place), context.policy, context.facts)
    if what == "dossier":
        return refused_dossiers.explain(line, int(kind), int(place), context.dossier)
    return scripts.explain(line, int(kind), int(place), context.sort, context.script)


def usage(line, context):
    found = words.explain(line, context.words)
    if found is not None:
        return found
    name = words.Words(context.words).values.get("user")
    users = [user.get("name") for user in context.policy.users() if isinstance(user, dict)] if context.policy else []
    known = ", ".join(str(user) for user in users[:20])
    return Finding(line, f"The words are right, and the policy has no user {quoted(str(name))} for --user.",
                   words.spot_of(context.words, place_of_value(context.words, name)),
                   f"write a user of the policy: {known}")


def place_of_value(spoken, value):
    """The number of the word that has a value."""
    return next((number for number, word in enumerate(spoken) if word == value or word.endswith(f"={value}")),
                len(spoken))


def of_status(status):
    """The explanation of a bare status."""
    if status in STATUSES:
        return Finding(f"status {status}", STATUSES[status], None, STATUS_ADVICE if 2 <= status <= 14 else None)
    if status > 128:
        return Finding(f"status {status}", f"A signal stopped the program: number {status - 128}.", None,
                       "what was answered by then is in the journals")
    return Finding(f"status {status}", "This isn't a status of the program.")


class Explainer:
    """Takes the lines of a run, and gives the findings when all are there."""

    def __init__(self, context, complete=False):
        self.context = context
        self.complete = complete  # whether all replies are given, from the first on
        self.said = []  # of each line that may be explained: its sort and the line
        self.replies = 0
        self.requests = []  # the lines of a session among them

    def take(self, line):
        """Takes a line without its end, and answers whether it is one of the program's or of a session."""
        if line.startswith(COMPLAINT):
            self.said.append(("complaint", line))
            return True
        if self.is_listing() and replies.INSTANCE.match(line):
            self.said.append(("instance", line))
            return True
        batch = replies.BATCH.match(line)
        if line == "* restarted" or replies.REPLY.match(line) or (batch and replies.REPLY.match(batch[3])):
            self.said.append(("reply", line))
            self.replies += 1
            return True
        if re.match(r"(login|ask|list)( |\Z)|quit\Z", line):
            self.said.append(("request", line))
            self.requests.append(line.encode("utf-8", "surrogateescape"))
            return True
        return False

    @cached_property
    def lines_of_session(self):
        """The lines of the script, where it is one of a session."""
        if self.context.script is None or self.context.sort != "session":
            return []
        return [self.context.script.line(number) for number, *_ in scripts.asks(self.context.script, "session")]

    def is_listing(self):
        """Whether the reply that comes next is one to a list, which has a line for each instance."""
        lines = self.requests or self.lines_of_session
        return self.replies < len(lines) and scripts.list_of(lines[self.replies]) is not None

    def findings(self):
        """Each explanation once, with the number of lines that it stands for."""
        result, place = {}, {}
        asked = self.asked_of_script()
        requests, number = [], 0
        for sort, line in self.said:
            if sort == "request":
                requests.append(line)
                continue
            finding = self.finding(sort, line, number, asked, requests)
            number += sort == "reply"
            if finding is not None:
                key = (finding.meaning, finding.said if sort == "complaint" else None, text_of(finding))
                result[key] = result.get(key, 0) + 1
                place.setdefault(key, finding)
        return [(place[key], count) for key, count in result.items()]

    def finding(self, sort, line, number, asked, requests):
        """The explanation of a line, or None where it needs none."""
        try:
            if sort == "complaint":
                return of_complaint(line, self.context)
            of_line = self.of_instance if sort == "instance" else self.of_reply
            return of_line(line, number, asked, requests)
        except Exception as fault:  # a wrapper has to keep the status of the program whatever happens here
            return Finding(line, f"This can't be explained, by a fault of this tool ({type(fault).__name__}: {fault}).",
                           None,
                           "man cqe has the meaning; tell who keeps the tool")

    def asked_of_script(self):
        """The asks of the script where they belong to the replies, else None."""
        if self.context.script is None:
            return None
        asked = scripts.asks(self.context.script, self.context.sort)
        fits = self.replies <= len(asked) if self.complete else self.replies == len(asked)
        return asked if fits else None

    def of_reply(self, line, number, asked, requests):
        """The explanation of a reply, or None where it needs none."""
        user, reply, ask = None, line, None
        match = replies.BATCH.match(line)
        if match and replies.REPLY.match(match[3]):
            user, reply = match[1], match[3]
        if requests:
            ask = self.of_request(requests.pop(0))
        elif asked is not None:
            ask = self.of_item(asked[number], user)
        return self.of_answer(line, reply, ask or replies.Asked(user))

    def of_instance(self, line, number, asked, requests):
        """The explanation of a line of a list, of whose question the names alone are known."""
        ask = self.of_request(requests[0]) if requests else self.of_item(asked[number], None) if asked else None
        if ask is None:
            whole = replies.Asked()
        else:
            whole = replies.Asked(None, None, ask.source, ask.start + len(ask.text) - len(ask.request), ask.request)
        return self.of_answer(line, replies.INSTANCE.match(line)[2], whole)

    def of_answer(self, line, reply, ask):
        if reply == "unsafe":
            return replies.unsafe(line, ask)
        code = replies.CODE.match(reply)
        if code is None:
            return None
        kind, place = (int(number) if number else None for number in code.group(2, 3))
        return replies.explain(line, int(code[1]), kind, place, ask, self.context)

    def of_item(self, item, user):
        number, start, who, text = item
        script = self.context.script
        if user is not None and (who or "").split(" ")[0] != user:
            return None
        at = script.start_of_line(number)
        return replies.Asked(user, text, script, at + (start if text is not None else 0), script.line(number))

    def of_request(self, line):
        data = line.encode("utf-8", "surrogateescape")
        start, text = scripts.asked_in(data)
        return replies.Asked(None, text, Text("the session", data), start, data)


def text_of(finding):
    """The piece that a finding points at: findings that differ by this alone are told apart."""
    spot = finding.spot
    return None if spot is None else spot.text.data[spot.start:spot.end] if spot.end - spot.start < 4096 else spot.start


def printed(findings):
    """The lines of the explanations, with an empty line between two; of very many the first."""
    lines = []
    for finding, count in findings[:MOST_SHOWN]:
        lines += ([""] if lines else []) + finding.lines()
        if count > 1:
            lines.append(f"  {count - 1:,} more of this kind.")
    if len(findings) > MOST_SHOWN:
        lines += ["", f"{len(findings) - MOST_SHOWN:,} further explanations are left out."]
    return lines
