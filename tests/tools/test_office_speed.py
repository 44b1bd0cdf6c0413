"""The table of tests/office_speed, over a program that stands in for cqe, and over cqe itself where it is there."""

import os
import re
import subprocess
import sys

import program
from told import InDirectory

SPEED = program.TOP / "tests/office_speed"
# It answers each ask with `yes`, and keeps the lines of a user as his journal. A standby is given the directory of the
# journals, and copies them.
STAND_IN = """#!{python}
import pathlib, socket, sys


def address(word):
    host, _, port = words[word].partition(":")
    return host, int(port)


command, words = sys.argv[1], dict(zip(sys.argv[2::2], sys.argv[3::2]))
users = [line.split('"')[1] for line in open(words["--policy"]) if line.startswith("name = ")]
journals = {{user: pathlib.Path(words["--journals"]) / (user + ".log") for user in users if "--journals" in words}}
if command == "init":
    for journal in journals.values():
        journal.touch()
elif command == "batch":
    opened = {{user: open(journal, "a") for user, journal in journals.items()}}
    for line in sys.stdin:
        user, session, _, text = line.split(" ", 3)
        opened[user].write(text)
        print(user, session, "yes")
    if "--standby" in words:
        with socket.create_connection(address("--standby")) as standby:
            standby.sendall(words["--journals"].encode())
            standby.recv(99)
elif command == "standby":
    with socket.create_server(address("--listen")) as listener:
        while True:
            with listener.accept()[0] as client:
                given = client.recv(999).decode()
                for user, journal in journals.items() if given else ():
                    journal.write_text((pathlib.Path(given) / journal.name).read_text() + {lost})
                client.sendall(b"ok")
elif command == "serve":
    with socket.create_server(address("--listen")) as listener:
        while True:
            with listener.accept()[0] as client:
                client.recv(99)
                client.sendall(b"bye\\n")
elif command == "check":
    print("sound", len(sys.stdin.read().splitlines()))
    sys.exit({checked})
else:
    print(journals[words["--user"]].read_text(), end="")
"""
SIZES = ["--users", "4", "--facts", "90", "--constants", "8", "--nodes", "300", "--asks", "6", "--long", "11"]


class Measured(InDirectory):
    def measured(self, path, *more, status=0):
        done = subprocess.run([sys.executable, SPEED, *SIZES, "--folder", self.directory, *more], capture_output=True,
                              text=True, timeout=300, env={**os.environ, "CQE": str(path)})
        self.assertEqual((done.returncode, done.stderr), (status, ""))
        self.assertEqual([path.name for path in self.directory.iterdir() if path.is_dir()], [])
        return done.stdout

    def stand_in(self, checked=0, lost=""):
        path = self.file("cqe", STAND_IN.format(python=sys.executable, checked=checked, lost=repr(lost)))
        path.chmod(0o755)
        return path

    def rows(self, text):
        """The rows of a table by their first column."""
        found = [[column.strip() for column in line.split("|")[1:-1]] for line in text.splitlines() if line.startswith("| ")]
        self.assertEqual({len(row) for row in found}, {5})
        for _, *numbers, _ in found[1:]:
            for number in numbers:
                self.assertRegex(number, r"\A[0-9,.]+\Z")
        return {row[0]: row[4] for row in found[1:]}

    def of_all(self, text, told="24 yes"):
        rows = self.rows(text)
        for workers in ("one worker", "4 workers"):
            self.assertIn(f"`batch`, empty journals, {workers}", rows)
            self.assertTrue(rows[f"4 × 6 asks, {workers}"].endswith(told))
            self.assertIn(f"`batch` at 6 items each, {workers}", rows)
            self.assertIn(f"`serve` at 6 items each, {workers}", rows)
        self.assertRegex(rows["`audit` of 4 users, one after the other"], r"\A[0-9,]+ bytes\Z")
        return rows

    def test_a_table_has_each_row(self):
        rows = self.of_all(self.measured(self.stand_in()))
        for user in ("u0", "u1", "u2"):
            self.assertTrue(rows[f"{user}, 11 items: the asks"].endswith("11 yes"))
            self.assertEqual(rows[f"{user}, 11 items: `check`"], "sound 11")
            self.assertIn(f"{user}, 11 items: what `batch` takes more that brings them to a standby", rows)
            self.assertIn(f"{user}, 11 items: what a takeover's `batch` takes more", rows)

    def test_another_journal_at_the_standby_ends_it(self):
        done = subprocess.run([sys.executable, SPEED, *SIZES, "--of", "u1"], capture_output=True, text=True, timeout=300,
                              env={**os.environ, "CQE": str(self.stand_in(lost="more"))})
        self.assertEqual(done.returncode, 1)
        self.assertEqual(done.stderr, "office_speed: the standby has other journals than the primary\n")

    def test_scripts_have_so_many_lines_as_are_allowed(self):
        rows = self.rows(self.measured(self.stand_in(), "--users", "26", "--asks", "4000", "--of", "", "--workers", "2"))
        self.assertTrue(rows["26 × 4,000 asks, 2 workers"].endswith("104,000 yes"))

    def test_a_status_stands_in_its_row(self):
        rows = self.rows(self.measured(self.stand_in(checked=14), "--of", "u3"))
        self.assertEqual(rows["u3, 11 items: `check`"], "status 14: ; sound 11")

    def test_a_program_that_fails_ends_it(self):
        path = self.file("cqe", "#!/bin/sh\necho 'cqe: shelf fault' >&2\nexit 9\n")
        path.chmod(0o755)
        done = subprocess.run([sys.executable, SPEED, *SIZES], capture_output=True, text=True, timeout=60,
                              env={**os.environ, "CQE": str(path)})
        self.assertEqual(done.returncode, 1)
        self.assertEqual(done.stderr, "office_speed: init ends with 9: cqe: shelf fault\n")

    @program.with_dossiers
    def test_the_program_itself(self):
        rows = self.of_all(self.measured(program.path()), told="")
        for user in ("u0", "u1", "u2"):
            self.assertTrue(re.match(r"sound 11\Z", rows[f"{user}, 11 items: `check`"]))
