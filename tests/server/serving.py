"""What the scripts of this folder share: the program, a made-up ward in a directory of its own, clients and journals.

The program is the one that the environment variable CQE names, else crates/cqe/out/cqe below the top of the repository.
"""

import contextlib
import hashlib
import os
import pathlib
import shutil
import socket
import subprocess
import sys
import tempfile
import time

TOP = pathlib.Path(__file__).resolve().parents[2]
PHRASE = "night shift"
MARKS = {1: "yes", 2: "no", 3: "refused", 4: "undecided"}
EMPTY_JOURNAL = 73


def program():
    """The path of the program."""
    path = os.environ.get("CQE") or str(TOP / "crates/cqe/out/cqe")
    if not os.access(path, os.X_OK):
        sys.exit(f"no program at {path}: build it by ./cqe, or set CQE")
    return path


def size(default):
    """The size of a script: its first word, or the default."""
    return int(sys.argv[1]) if len(sys.argv) > 1 else default


def free_port():
    """A port of the loopback address at which nobody listens."""
    with socket.create_server(("127.0.0.1", 0)) as listener:
        return listener.getsockname()[1]


class Ward:
    """A directory with a policy of so many users, facts and empty journals."""

    def __init__(self, users=3, facts="hiv(ann)\ndrug(ann)\n"):
        self.root = pathlib.Path(tempfile.mkdtemp(prefix="cqe-server-"))
        self.users = [f"u{number}" for number in range(users)]
        (self.root / "policy").write_text(self.policy())
        (self.root / "facts").write_text(facts)
        (self.root / "journals").mkdir()
        self.headers = self.header()
        done = self.run("init")
        if done.returncode != 0:
            sys.exit(f"init ended with {done.returncode}: {done.stderr}")

    def policy(self):
        token = hashlib.sha256(PHRASE.encode()).hexdigest()
        methods = ["lying", "refusal", "combined"]
        lines = ["version = 1", "[domains]", 'person = ["ann", "bob"]', "[relations]"]
        lines += ['drug = ["person"]', 'hiv = ["person"]']
        for number, name in enumerate(self.users):
            lines += ["[[users]]", f'name = "{name}"', f'method = "{methods[number % 3]}"']
            lines += ['know = ["forall x: person . drug(x) -> hiv(x)"]']
            lines += ['secrets = ["hiv(ann)"]', f'token = "{token}"']
        return "\n".join(lines) + "\n"

    def header(self):
        parts = [(self.root / name).read_bytes() for name in ("policy", "facts")]
        return b"CQEJRNL2" + b"".join(hashlib.sha256(part).digest() for part in parts)

    def words(self, command, *more):
        files = ["--policy", self.root / "policy", "--facts", self.root / "facts"]
        words = [program(), command, *files, "--journals", self.root / "journals", *more]
        return [str(word) for word in words]

    def run(self, command, *more, script=""):
        """Runs a command to its end."""
        return subprocess.run(
            self.words(command, *more), input=script, capture_output=True, text=True, check=False
        )

    def path(self, user):
        return self.root / "journals" / f"{user}.log"

    def entries(self, user):
        """The records of a journal as pairs of a mark and a text. The bytes have to be a whole journal of these files."""
        return records(self.path(user).read_bytes(), self.headers)

    def bytes(self):
        return {user: self.path(user).read_bytes() for user in self.users}

    def remove(self):
        shutil.rmtree(self.root)


def records(data, header):
    """The records of a journal, read here by the form of a journal and not by the program."""
    assert data[:72] == header, "another header"
    found, gate = [], 72
    while data[gate] == 1:
        kind, length = data[gate + 1], 256 * data[gate + 2] + data[gate + 3]
        text = data[gate + 4 : gate + 4 + length]
        assert kind in MARKS and length <= 4096 and gate + 4 + length < len(data), f"damaged at {gate}"
        found.append((MARKS[kind], text.decode()))
        gate += 4 + length
    return found


@contextlib.contextmanager
def ward(users=3):
    """A ward that is removed in the end."""
    place = Ward(users)
    try:
        yield place
    finally:
        place.remove()


class Server:
    """A server that answers."""

    def __init__(self, place, *more, workers=4, limits=None):
        self.place, self.port = place, free_port()
        more = ["--listen", f"127.0.0.1:{self.port}", "--workers", workers, *more]
        self.process = subprocess.Popen(
            place.words("serve", *more),
            stdin=subprocess.DEVNULL,
            stdout=subprocess.PIPE,
            stderr=subprocess.PIPE,
            text=True,
            preexec_fn=limits,
        )
        self.ready()

    def ready(self, seconds=60):
        """Waits until a line is answered."""
        end = time.monotonic() + seconds
        while time.monotonic() < end:
            if self.process.poll() is not None:
                sys.exit(f"the server ended with {self.process.returncode}: {self.process.stderr.read()}")
            with contextlib.suppress(OSError), Client(self.port, seconds=seconds) as client:
                if client.say("quit") == "bye":
                    return
            time.sleep(0.01)
        sys.exit("the server doesn't answer")

    def client(self, seconds=60):
        return Client(self.port, seconds)

    def end(self, kill=False):
        """Stops the server, and gives what it wrote to standard error."""
        if kill:
            self.process.kill()
        else:
            self.process.terminate()
        return self.process.communicate(timeout=60)[1]


class Client:
    """A connection to a server."""

    def __init__(self, port, seconds=60):
        self.socket = socket.create_connection(("127.0.0.1", port), timeout=seconds)
        self.replies = self.socket.makefile("r", encoding="ascii", newline="\n")

    def __enter__(self):
        return self

    def __exit__(self, *_why):
        self.close()

    def send(self, line):
        self.socket.sendall(line.encode() + b"\n")

    def reply(self):
        """The next reply, or none where the connection has ended."""
        line = self.replies.readline()
        return line[:-1] if line.endswith("\n") else None

    def say(self, line):
        self.send(line)
        return self.reply()

    def login(self, user):
        return self.say(f"login {user} {PHRASE}")

    def close(self):
        self.replies.close()
        self.socket.close()


def check(holds, what):
    """Ends the script where something doesn't hold."""
    if not holds:
        sys.exit(f"FAILED: {what}")
