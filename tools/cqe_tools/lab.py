"""What cqe-lab works on: copies of policies and facts in a temporary directory, and the program's answers over them.

No censor is computed here, and no truth: each reply, each truth and each other database is what the program said.
"""

import shutil
import subprocess
import threading
from contextlib import contextmanager
from pathlib import Path
from tempfile import TemporaryDirectory

from . import lab_sessions
from .checking import Asker, Unusable
from .lab_trial import Trial

RUNS_AT_ONCE = 4
TRIALS = 16  # how many copies are kept; a further one takes the place of the oldest


class Programs:
    """The runs of the program: a few at once, and none once the lab has ended."""

    def __init__(self, path, directory):
        self.path = path
        self.directory = directory
        self.room = threading.BoundedSemaphore(RUNS_AT_ONCE)
        self.lock = threading.Lock()
        self.running = set()
        self.ended = False

    def run(self, words, given):
        """A run with these words, with this on standard input."""
        with self.started(words) as child:
            output, complaints = child.communicate(given)
        return subprocess.CompletedProcess(words, child.returncode, output, complaints)

    @contextmanager
    def serving(self, words):
        """A server that is stopped once it isn't used any more."""
        with self.started(words) as child, child:
            try:
                yield child
            finally:
                child.terminate()

    @contextmanager
    def started(self, words):
        """A process with these words; it counts as running as long as it is used."""
        with self.room:
            child = self.start(words)
            try:
                yield child
            finally:
                with self.lock:
                    self.running.discard(child)

    def start(self, words):
        with self.lock:
            if self.ended:
                raise Unusable("the lab has ended")
            child = subprocess.Popen(words, stdin=subprocess.PIPE, stdout=subprocess.PIPE, stderr=subprocess.PIPE,
                                     cwd=self.directory)
            self.running.add(child)
        return child

    def end(self):
        """Ends the runs that are going on; there are no further ones."""
        with self.lock:
            self.ended = True
            for child in self.running:
                child.kill()


class LabAsker(Asker):
    """An asker whose runs end with the lab."""

    def __init__(self, programs, facts, directory):
        super().__init__(programs.path, facts, str(directory))
        self.programs = programs

    def run(self, words, given):
        return self.programs.run(words, given)

    def listed(self, policy, journals, phrase, lines):
        """Of each pair of a user and a line what a server says to it, as lines; his phrase is this one."""
        words = [self.path, "serve", "--policy", policy, "--facts", self.facts, "--journals", journals, "--listen",
                 f"{lab_sessions.LOOPBACK}:0"]
        with self.programs.serving(words) as server:
            port = lab_sessions.port_of(server)
            return [lab_sessions.said_to(port, name, phrase, line) for name, line in lines]


class Lab:
    """A temporary directory with the copies that pages work on. What is done in it is counted, so that it can end."""

    def __init__(self, path):
        self.holder = TemporaryDirectory(prefix="cqe-lab.")
        self.directory = Path(self.holder.name)
        self.programs = Programs(path, self.directory)
        self.changed = threading.Condition()
        self.at_work = 0
        self.number = 0
        self.trials = {}

    @contextmanager
    def work(self):
        """Some work in the directory, for whose end the end of the lab waits."""
        with self.changed:
            if self.programs.ended:
                raise Unusable("the lab has ended")
            self.at_work += 1
        try:
            yield
        finally:
            with self.changed:
                self.at_work -= 1
                self.changed.notify_all()

    def open(self, files):
        """A new copy of files, under a number of its own; Explained where the program refuses one."""
        with self.changed:
            self.number += 1
            number = self.number
        place = self.directory / f"trial{number}"
        try:
            trial = Trial(lambda facts, directory: LabAsker(self.programs, facts, directory), place, files)
        except BaseException:
            shutil.rmtree(place, ignore_errors=True)
            raise
        with self.changed:
            self.trials[number] = trial
            dropped = self.trials.pop(min(self.trials)) if len(self.trials) > TRIALS else None
        if dropped is not None:
            shutil.rmtree(dropped.place, ignore_errors=True)
        return number, trial

    def end(self):
        """Ends all work, and takes the directory away."""
        self.programs.end()
        with self.changed:
            self.changed.wait_for(lambda: self.at_work == 0)
        self.holder.cleanup()
