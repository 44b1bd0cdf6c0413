"""The command cqe-explain: a filter of what the program said, or a wrapper around a call of it."""

import argparse
import os
import signal
import stat
import subprocess
import sys
import threading

from . import surroundings, words
from .explaining import COMPLAINT, Context, Explainer, of_status, printed
from .places import Text

KEPT_SCRIPT = 64 * 1024 * 1024  # bytes of a script from a pipe that are kept for pointing at
WRONG_WORDS, NOT_STARTED = 2, 127
WRITE_FAULT = 7  # the program's own status where a reply can't be written

ABOUT = """Says in plain words what the complaints ('cqe: ..') and the replies 'error ..' of cqe mean, where, and
what to do:

  cqe batch .. < SCRIPT 2>&1 >REPLIES | cqe-explain --policy P --facts F --script SCRIPT
  cqe-explain --script SCRIPT < REPLIES
  cqe-explain -- cqe batch --policy P --facts F --journals DIR < SCRIPT

The last form runs the command, hands its replies on, explains on standard error, and ends with its status."""


def options():
    parser = argparse.ArgumentParser(prog="cqe-explain", description=ABOUT,
                                     formatter_class=argparse.RawDescriptionHelpFormatter,
                                     allow_abbrev=False, usage="cqe-explain [OPTIONS] [-- COMMAND ..]")
    parser.add_argument("--policy", metavar="P", help="the policy file")
    parser.add_argument("--facts", metavar="F", help="the facts file")
    parser.add_argument("--script", metavar="S", help="the script of case or batch, or a file of a session's lines")
    parser.add_argument("--journals", metavar="DIR", help="the directory of the journals")
    parser.add_argument("--listen", metavar="ADDRESS", help="the address of a server")
    parser.add_argument("--status", metavar="N", type=int, help="explain a status alone")
    return parser


def main(arguments):
    cut = arguments.index("--") if "--" in arguments else len(arguments)
    given = options().parse_args(arguments[:cut])
    command = arguments[cut + 1:]
    if cut < len(arguments) and not command:
        options().error("there is no command behind --")
    if given.status is not None:
        print("\n".join(of_status(given.status).lines()))
        return 0
    return wrap(given, command) if command else follow(given)


def follow(given):
    """Explains the lines of standard input; what isn't the program's goes through as it is."""
    note_unread(given)
    context = Context(given.policy, given.facts, given.script, given.journals, given.listen)
    explainer = Explainer(context)
    if sys.stdin is None:
        print("cqe-explain: there is no standard input", file=sys.stderr)
        return WRONG_WORDS
    if sys.stdin.isatty():
        print("cqe-explain: reading what cqe said from standard input", file=sys.stderr)
    for line in split(sys.stdin.buffer.read()):
        if not explainer.take(line) and line.strip():
            show([line], sys.stdout)
    show(printed(explainer.findings()), sys.stdout)
    return 0


def note_unread(given):
    """Says which of the named files can't be read, since without it less is explained."""
    for option in ("policy", "facts", "script"):
        name = getattr(given, option)
        if name is not None and Text.of_file(name) is None:
            print(f"cqe-explain: the file behind --{option} can't be read, so no place in it is shown: {name}",
                  file=sys.stderr)


def split(data):
    return [line.removesuffix("\r") for line in data.decode("utf-8", "surrogateescape").removesuffix("\n").split("\n")]


def show(lines, stream):
    """Writes lines; a reader who went away is no fault."""
    if stream is None:
        return
    try:
        for line in lines:
            stream.buffer.write(line.encode("utf-8", "surrogateescape") + b"\n")
        stream.flush()
    except (OSError, ValueError):
        give_up(stream)


def give_up(stream):
    """Lets further writes to a stream go nowhere, Python's own at its end too."""
    os.dup2(os.open(os.devnull, os.O_WRONLY), stream.fileno())


def words_of(command):
    """The words of the program: behind a word cqe.. that is followed by a command of it, else behind the first."""
    for number, word in enumerate(command[:-1]):
        if os.path.basename(word).startswith("cqe") and command[number + 1] in words.COMMANDS:
            return command[number + 1:]
    return command[1:]


class Wrapped:
    """A run of the program, of which what it says is kept."""

    def __init__(self, command, read):
        self.lines = []
        self.read = read  # whether the command reads standard input
        self.unwritten = None  # why a reply couldn't be handed on
        given, self.kept = self.source()
        self.child = subprocess.Popen(command, stdin=given, stdout=subprocess.PIPE, stderr=subprocess.PIPE)
        for number in (signal.SIGTERM, signal.SIGHUP):
            signal.signal(number, lambda number, frame: self.child.send_signal(number))
        # An interrupt of the terminal reaches the program by itself.
        signal.signal(signal.SIGINT, signal.SIG_IGN)

    def source(self):
        """What the program gets as standard input, and the script's bytes where they can be read beside it."""
        if not self.read:
            return None, None
        try:
            found = os.fstat(0)
            if stat.S_ISREG(found.st_mode):
                return None, os.pread(0, min(found.st_size, KEPT_SCRIPT), os.lseek(0, 0, os.SEEK_CUR))
            os.read(0, 0)
        except OSError:  # what can't be read here can't be read by the program, which is to say so
            return None, None
        return subprocess.PIPE, bytearray()

    def run(self):
        """The status of the program, behind its end."""
        if self.child.stdin is not None:
            threading.Thread(target=self.feed, daemon=True).start()
        complaints = threading.Thread(target=self.hear)
        complaints.start()
        self.pass_on()
        complaints.join()
        return self.child.wait()

    def feed(self):
        """Hands standard input on to the program, and keeps it."""
        try:
            while piece := os.read(0, 65536):
                if len(self.kept) < KEPT_SCRIPT:
                    self.kept += piece
                self.child.stdin.write(piece)
                self.child.stdin.flush()
        except OSError:
            pass
        try:
            self.child.stdin.close()
        except OSError:
            pass

    def pass_on(self):
        """Hands the program's replies on, and keeps them."""
        for line in self.child.stdout:
            self.unwritten = fault_of_write(line)
            if self.unwritten is not None:
                self.child.stdout.close()  # so that the program sees it at its next reply
                break
            self.keep(line)

    def hear(self):
        """Keeps the complaints; all else on standard error is handed on."""
        for line in self.child.stderr:
            if line.startswith(COMPLAINT.encode()):
                self.keep(line)
            else:
                show([line.removesuffix(b"\n").decode("utf-8", "surrogateescape")], sys.stderr)

    def keep(self, line):
        self.lines.append(line.removesuffix(b"\n").decode("utf-8", "surrogateescape"))


def fault_of_write(line):
    """Why a reply can't be written to standard output; None where it was."""
    if sys.stdout is None:
        return "it is closed"
    try:
        sys.stdout.buffer.write(line)
        sys.stdout.buffer.flush()
    except OSError as error:
        give_up(sys.stdout)
        return error.strerror
    return None


def wrap(given, command):
    """Runs a command, explains what it said, and ends as it did."""
    spoken = words_of(command)
    read = words.Words(spoken)
    try:
        run = Wrapped(command, read.command in ("case", "batch", "check"))
    except OSError as error:
        print(f"cqe-explain: {command[0]} can't be started: {error.strerror}", file=sys.stderr)
        return NOT_STARTED
    status = run.run()
    script, dossier = given.script, None
    if run.kept is not None and read.command == "check":
        dossier = Text("standard input", bytes(run.kept))
    elif script is None and run.kept is not None:
        script = Text("standard input", bytes(run.kept))
    values = read.values
    context = Context(given.policy or values.get("policy"), given.facts or values.get("facts"), script,
                      given.journals or values.get("journals"), given.listen or values.get("listen"), spoken,
                      read.command if read.command in ("case", "batch") else None, values.get("to"), dossier)
    explainer = Explainer(context, complete=True)
    for line in run.lines:
        explainer.take(line)
    found = explainer.findings()
    if status != 0 and not any(sort == "complaint" for sort, _ in explainer.said):
        found.append((of_status(status if status > 0 else 128 - status), 1))
    if status == 0 and run.unwritten is not None:
        found.append((surroundings.not_handed_on(run.unwritten), 1))
        status = WRITE_FAULT
    show(printed(found), sys.stderr)
    return end_as(status)


def end_as(status):
    """The status to end with; a signal that stopped the program stops this one too."""
    if status < 0:
        signal.signal(-status, signal.SIG_DFL) if -status not in (signal.SIGKILL, signal.SIGSTOP) else None
        os.kill(os.getpid(), -status)
    return status
