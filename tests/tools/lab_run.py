"""A running cqe-lab, as the tests of it ask it."""

import http.client
import json
import os
import re
import signal
import subprocess
import sys
from pathlib import Path

import program

LAB = program.TOP / "tools/cqe-lab"
ADDRESS = re.compile(r"http://127\.0\.0\.1:(\d+)/([\w-]+)/\n")
SECONDS = 120

# Stands in for the program where what it says is of no matter. It says no to each question, and adds each secret; but
# a line with 'wait' is never answered, a secret with 'late' is unsafe, and a list with 'short' has too few quantifiers.
# Of a list each constant is ann or bob. For a secret or a secrecy with 'spent' the search for another database is given
# up. A secrecy is a fact, and the only one of the database in which it is true.
STAND_IN = """#!{python} -IS
import json, os, sys, time, tomllib
command, words = sys.argv[1], dict(zip(sys.argv[2::2], sys.argv[3::2]))
with open(words["--policy"], "rb") as file:
    users = {{user["name"]: user for user in tomllib.load(file)["users"]}}

def path(name):
    return os.path.join(words["--journals"], name + ".log")

def records(data, at=72):
    while data[at] == 1:
        length = int.from_bytes(data[at + 2:at + 4], "big")
        yield data[at + 1], data[at + 4:at + 4 + length].decode("utf-8", "replace")
        at += 4 + length

def told(name, kind, text):
    if "wait" in text:
        time.sleep(1000)
    with open(path(name), "r+b") as journal:
        data = journal.read()
        record = bytes([1, kind]) + len(text.encode()).to_bytes(2, "big") + text.encode()
        journal.seek(0)
        journal.write(data[:-1] + record + bytes(1))
    return "protected" if kind == 5 else "no"

def listed(name, count, text):
    import itertools
    if "short" in text:
        return ["error 28 1"]
    rows = [" ".join(names) + " " + told(name, 2, text) for names in itertools.product(["ann", "bob"], repeat=count)]
    return rows + [f"done {{len(rows)}}"]

def session(lines, name=None):
    import hashlib
    for line in lines:
        word, _, rest = line.rstrip("\\n").partition(" ")
        if word == "login":
            name, _, phrase = rest.partition(" ")
            yield "welcome" if users[name]["token"] == hashlib.sha256(phrase.encode()).hexdigest() else "error 25"
        elif word == "list":
            yield from listed(name, int(rest[0]), rest[2:])
        else:
            yield "bye"

if command == "init":
    for name in users:
        with open(path(name), "wb") as journal:
            journal.write(bytes(73))
if command == "audit":
    user = users[words["--user"]]
    world = lambda text: None if "spent" in text else []
    secrecies = [{{"false": world(text), "secrecy": text, "true": None if world(text) is None else [text]}}
                 for text in user.get("secrecies", [])]
    with open(path(user["name"]), "rb") as journal:
        found = list(records(journal.read()))
    entries = [dict(protect=text) if kind == 5 else dict(mark="no", query=text) for kind, text in found]
    secrets = user.get("secrets", []) + [text for kind, text in found if kind == 5]
    print(json.dumps(dict(entries=entries, name=user["name"], method=user["method"], standing="open",
                          secrets=[dict(secret=text, world=world(text)) for text in secrets],
                          **(dict(secrecies=secrecies) if secrecies else {{}}))))
if command == "batch":
    for line in sys.stdin.buffer.read().decode("utf-8", "replace").split("\\n")[:-1]:
        name, caller, word, text = line.split(" ", 3)
        reply = "unsafe" if caller == "op" and "late" in text else told(name, 5 if caller == "op" else 2, text)
        print(name, caller, reply)
if command == "serve":
    import socket
    host, port = words["--listen"].split(":")
    with socket.create_server((host, int(port))) as listener:
        while True:
            with listener.accept()[0] as link, link.makefile("r", errors="replace", newline="\\n") as lines:
                for reply in session(lines):
                    link.sendall((reply + "\\n").encode())
                    if reply == "bye":
                        break
"""


def stand_in(directory):
    """A program in a directory that answers each question with no."""
    path = Path(directory) / "cqe"
    path.write_text(STAND_IN.format(python=sys.executable))
    path.chmod(0o755)
    return path


class Lab:
    """A lab that runs with its temporary files in a directory."""

    def __init__(self, directory, cqe, *words, **more):
        self.directory = Path(directory)
        given = {**os.environ, "TMPDIR": str(directory), "CQE": str(cqe), "HOME": str(directory)}
        self.child = subprocess.Popen([LAB, *map(str, words)], env=given, stdin=subprocess.DEVNULL,
                                      stdout=subprocess.PIPE, stderr=subprocess.PIPE, text=True, **more)
        match = ADDRESS.fullmatch(self.child.stdout.readline())
        assert match, self.child.communicate(timeout=SECONDS)
        self.port, self.token = int(match[1]), match[2]

    @property
    def address(self):
        return f"http://127.0.0.1:{self.port}/{self.token}/"

    def __enter__(self):
        return self

    def __exit__(self, *_):
        if self.child.poll() is None:
            self.end()

    def end(self, number=signal.SIGTERM):
        """The status and the complaints of the lab, which a signal ends."""
        self.child.send_signal(number)
        _, complaints = self.child.communicate(timeout=SECONDS)
        return self.child.returncode, complaints

    def left(self):
        """What lies in its directory of temporary files."""
        return sorted(path.name for path in self.directory.iterdir() if path.name.startswith("cqe-lab."))

    def asked(self, method, path, body=None, headers=()):
        """The status, the headers and the bytes of a reply; these headers in place of the usual ones."""
        link = http.client.HTTPConnection("127.0.0.1", self.port, timeout=SECONDS)
        try:
            link.putrequest(method, path, skip_host=True, skip_accept_encoding=True)
            usual = {"Host": f"127.0.0.1:{self.port}", "Content-Type": "application/json",
                     "Content-Length": str(len(body)) if body is not None else None}
            for name, value in [*{**usual, **dict(headers)}.items()]:
                for one in value if isinstance(value, list) else [value]:
                    if one is not None:
                        link.putheader(name, one)
            link.endheaders(body)
            reply = link.getresponse()
            return reply.status, reply.headers, reply.read()
        finally:
            link.close()

    def post(self, what, sent, headers=()):
        """The status and the object that what is sent is answered with."""
        body = sent if isinstance(sent, bytes) else json.dumps(sent).encode()
        status, found, content = self.asked("POST", f"/{self.token}/{what}", body, headers)
        assert found["Content-Type"] == "application/json", found
        return status, json.loads(content)

    def shown(self, what, **sent):
        """The object of a reply in which nothing is wrong."""
        status, found = self.post(what, sent)
        assert status == 200, found
        return found

    def opened(self, **sent):
        return self.shown("open", **sent)
