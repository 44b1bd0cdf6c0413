"""The page of cqe-lab over HTTP: on the loopback alone, at an address with a random token.

GET /TOKEN/ is the page. POST /TOKEN/WHAT, with an object of JSON, is what the page asks for: `start`, `open`, `ask`,
`list`, `protect` or `why`. Every reply but the page is an object of JSON; where it has the key `fault`, that says what
couldn't be done.
"""

import base64
import hashlib
import hmac
import json
import re
import secrets
import socketserver
from functools import cached_property
from http.server import BaseHTTPRequestHandler, ThreadingHTTPServer
from pathlib import Path

from . import lab_examples
from .checking import Unusable
from .lab_trial import Explained

PAGE = Path(__file__).resolve().with_name("lab.html")
LOOPBACK = "127.0.0.1"
MOST_BYTES = 1 << 20  # of what the page sends
DRAINED_BYTES = 1 << 24  # so much of what is too long is read, so that the sender hears the reply
SECONDS = 60  # for which a client may say nothing
MOST_OPENED = 4  # quantifiers of a list
GIVEN = "given"  # the name of the files of the command line
INLINE = re.compile(rb"<(script|style)>(.*?)</\1>", re.S)


class Wrong(Exception):
    """A request that can't be answered: its status, and why."""

    def __init__(self, status, why):
        super().__init__(status, why)
        self.status = status
        self.why = why


class Pages(ThreadingHTTPServer):
    """The server of one lab's pages, at a free port."""

    daemon_threads = True

    def __init__(self, lab, given=None):
        super().__init__((LOOPBACK, 0), Handler)
        self.lab = lab
        self.given = given  # the files of the command line, or None
        self.token = secrets.token_urlsafe(24)
        self.page = PAGE.read_bytes()

    def server_bind(self):
        """As the base class does it, but for asking the network who this is."""
        socketserver.TCPServer.server_bind(self)
        self.server_name, self.server_port = self.server_address[:2]

    @property
    def host(self):
        return f"{LOOPBACK}:{self.server_port}"

    @property
    def address(self):
        return f"http://{self.host}/{self.token}/"

    @cached_property
    def allowed(self):
        """What the page may load: its own script and style, each by its digest, and replies from here."""
        digests = {kind: f"'sha256-{base64.b64encode(hashlib.sha256(text).digest()).decode()}'"
                   for kind, text in INLINE.findall(self.page)}
        return (f"default-src 'none'; script-src {digests[b'script']}; style-src {digests[b'style']}; connect-src "
                "'self'; base-uri 'none'; form-action 'none'; frame-ancestors 'none'")

    def handle_error(self, request, client_address):
        """A client who went away is no fault."""


class Handler(BaseHTTPRequestHandler):
    """One request."""

    timeout = SECONDS
    server_version = "cqe-lab"
    sys_version = ""
    error_content_type = "text/plain; charset=utf-8"
    error_message_format = "%(code)d %(message)s\n"

    def do_GET(self):
        try:
            if self.wanted() != "":
                raise Wrong(404, "there is nothing here")
            self.send(200, "text/html; charset=utf-8", self.server.page)
        except Wrong as wrong:
            self.send_json(wrong.status, {"fault": wrong.why})

    def do_POST(self):
        try:
            body = self.body()
            what = ANSWERS.get(self.wanted())
            if what is None:
                raise Wrong(404, "there is nothing here")
            with self.server.lab.work():
                status, shown = 200, what(self.server, parsed(self.headers, body))
        except Wrong as wrong:
            status, shown = wrong.status, {"fault": wrong.why}
        except Explained as refusal:
            status, shown = 200, {"refused": refusal.shown}
        except Unusable as unusable:
            status, shown = 503, {"fault": str(unusable)}
        except Exception as fault:  # whatever happens here, the page is to hear of it
            status, shown = 500, {"fault": f"this is a fault of the lab ({type(fault).__name__}: {fault})"}
        self.send_json(status, shown)

    def wanted(self):
        """What stands behind the token in the address; Wrong for another host, page or token."""
        if self.headers.get_all("Host") != [self.server.host]:
            raise Wrong(403, "this isn't the host of the lab")
        if self.headers.get("Origin", f"http://{self.server.host}") != f"http://{self.server.host}":
            raise Wrong(403, "another page asks")
        token, slash, what = self.path.removeprefix("/").partition("/")
        if not slash or not hmac.compare_digest(token.encode("utf-8", "replace"), self.server.token.encode()):
            raise Wrong(404, "there is nothing here")
        return what

    def body(self):
        """The bytes that were sent; what is too long is read and dropped."""
        length = self.headers.get("Content-Length", "")
        if not re.fullmatch("[0-9]{1,12}", length):
            raise Wrong(411, "the length of what is sent has to be said")
        if int(length) <= MOST_BYTES:
            return self.rfile.read(int(length))
        left = min(int(length), DRAINED_BYTES)
        while left > 0 and (piece := self.rfile.read(min(left, 65536))):
            left -= len(piece)
        raise Wrong(413, f"more than {MOST_BYTES:,} bytes were sent")

    def send_json(self, status, shown):
        self.send(status, "application/json", json.dumps(shown).encode("ascii"))

    def send(self, status, kind, content):
        self.send_response(status)
        for name, value in [("Content-Type", kind), ("Content-Length", str(len(content))),
                            ("Content-Security-Policy", self.server.allowed), ("X-Content-Type-Options", "nosniff"),
                            ("Referrer-Policy", "no-referrer"), ("Cache-Control", "no-store"),
                            ("Cross-Origin-Resource-Policy", "same-origin"),
                            ("Cross-Origin-Opener-Policy", "same-origin")]:
            self.send_header(name, value)
        self.end_headers()
        self.wfile.write(content)

    def log_message(self, format, *arguments):
        """Requests aren't logged: the token stands in them."""


def parsed(headers, body):
    """The object that was sent."""
    if headers.get_content_type() != "application/json":
        raise Wrong(415, "what is sent has to be JSON")
    try:
        sent = json.loads(body)
    except (ValueError, RecursionError) as error:
        raise Wrong(400, "what was sent is no JSON") from error
    if not isinstance(sent, dict):
        raise Wrong(400, "what was sent is no object")
    return sent


def member(sent, key, kind):
    """A member of what was sent, of this kind."""
    value = sent.get(key)
    if not isinstance(value, kind) or isinstance(value, bool):
        raise Wrong(400, f"'{key}' is wanting, or of another kind")
    return value


def start(server, sent):
    """What there is to load, and which of it first."""
    listed = [{"name": name, "title": lab_examples.EXAMPLES[name][0]} for name in lab_examples.found()]
    if server.given is not None:
        listed.insert(0, {"name": GIVEN, "title": server.given.title})
    return {"examples": listed}


def open_files(server, sent):
    """A new copy of an example, of the files of the command line, or of what was typed."""
    number, trial = server.lab.open(files_of(server, sent))
    return {"trial": number, **trial.shown()}


def files_of(server, sent):
    if "example" not in sent:
        policy, facts = (member(sent, key, str).encode("utf-8", "replace") for key in ("policy", "facts"))
        return lab_examples.Files("Your own files", policy, facts)
    name = member(sent, "example", str)
    if name == GIVEN and server.given is not None:
        return server.given
    if name not in lab_examples.found():
        raise Wrong(400, "there is no such example")
    return lab_examples.load(name)


def trial_of(server, sent):
    trial = server.lab.trials.get(member(sent, "trial", int))
    if trial is None:
        raise Wrong(410, "this copy is gone, since many were opened after it: load it again")
    return trial


def said_of_users(server, sent):
    """What is sent of one line for some users: the copy, their names, and the text."""
    trial, names, text = trial_of(server, sent), member(sent, "users", list), member(sent, "text", str)
    if not names or any(name not in trial.users for name in names if isinstance(name, str)):
        raise Wrong(400, "a user of the policy is wanted")
    if not all(isinstance(name, str) for name in names) or len(set(names)) < len(names):
        raise Wrong(400, "each user is named once")
    if "\n" in text or "\r" in text:
        raise Wrong(400, "a sentence stands in one line")
    return trial, names, text


def ask(server, sent):
    """The replies to one question of some users."""
    trial, names, text = said_of_users(server, sent)
    return trial.ask(names, text)


def list_instances(server, sent):
    """The replies to each instance of one question of some users."""
    trial, names, text = said_of_users(server, sent)
    count = member(sent, "count", int)
    if not 1 <= count <= MOST_OPENED:
        raise Wrong(400, f"a list opens 1 to {MOST_OPENED} quantifiers")
    return trial.list(names, count, text)


def protect(server, sent):
    """The replies to an operator who adds one secret to some users."""
    trial, names, text = said_of_users(server, sent)
    return trial.protect(names, text)


def why(server, sent):
    """Why the reply of a number tells a user nothing."""
    trial, name, number = trial_of(server, sent), member(sent, "user", str), member(sent, "number", int)
    if name not in trial.users or not 1 <= number <= len(trial.told[name]):
        raise Wrong(400, "there is no such reply")
    return trial.why(name, number)


ANSWERS = {"start": start, "open": open_files, "ask": ask, "list": list_instances, "protect": protect, "why": why}
