"""What cqe-check says of policies, beside what the censors' rules say of them."""

import json
import os
import stat
import subprocess
import sys
import unittest.mock

import program
from told import CHECK, FACTS, POLICY, InDirectory, changed  # makes the tools' modules found, too

from cqe_tools import checking

# Who is open and why somebody isn't is worked out by the rules of admission, over the facts hiv(ann) and lies(bob, w1).
USERS = """
[[users]]
name = "lou"
method = "lying"
token = "ba7816bf8f01cfea414140de5dae2223b00361a396177a9cb410ff61f20015ad"
know = ["hiv(ann) or hiv(bob)"]
secrets = ["lies(ann, w1)", "hiv(ann)", "hiv(bob)"]

[[users]]
name = "max"
method = "combined"
know = ["hiv(ann) or hiv(bob)"]
secrets = ["hiv(ann)", "hiv(bob)"]

[[users]]
name = "tom"
method = "refusal"
know = ["true", "hiv(bob)"]
secrets = ["hiv(ann)"]

[[users]]
name = "ida"
method = "combined"
know = ["hiv(ann)"]
secrets = ["hiv(bob)", "exists x: person . hiv(x)"]

[[users]]
name = "kai"
method = "refusal"
know = ["hiv(ann)"]
secrets = ["hiv(ann) or hiv(bob)"]

[[users]]
name = "con"
method = "lying"
know = ["hiv(bob)", "not hiv(bob)"]
secrets = ["lies(ann, w1)"]

[[users]]
name = "zoe"
method = "combined"
know = ["hiv(bob)"]
secrets = ["hiv(ann)"]
"""


# Of version 2. Beside what he knows a secrecy is closed to who knows that it is true or that it is false.
OF_2 = changed(("version = 1", "version = 2")) + """
[[users]]
name = "lia"
method = "lying"
secrecies = ["hiv(ann)", "lies(ann, w1)"]

[[users]]
name = "ray"
method = "combined"
know = ["hiv(bob)"]
secrecies = ["hiv(ann)"]

[[users]]
name = "una"
method = "refusal"
secrets = ["lies(ann, w1)"]
secrecies = ["hiv(ann)", "hiv(ann) and hiv(bob)"]

[[users]]
name = "pat"
method = "combined"
know = ["not hiv(ann)"]
secrets = ["hiv(bob)"]
secrecies = ["hiv(ann)"]

[[users]]
name = "sam"
method = "refusal"
know = ["hiv(ann)"]
secrecies = ["hiv(bob)", "hiv(ann)"]
"""


class Checking(InDirectory):
    def check(self, policy, facts=FACTS, **more):
        words = [CHECK, self.file("policy", policy), self.file("facts", facts)]
        return subprocess.run(words, capture_output=True, text=True, timeout=300, **more)

    @staticmethod
    def rows(output):
        """The table: the cells of each user's row."""
        table = output.split("\n\n")[0].splitlines()
        return {row.split()[0]: row.split()[1:] for row in table[1:]}

    @staticmethod
    def remarks(output, name):
        """What is said of one user."""
        blocks = [block for block in output.split("\n\n") if block.startswith(f"{name}:\n")]
        return blocks[0].splitlines()[1:] if blocks else []

    def assertLiar(self, output):
        """That it is said why a liar with secrecies is closed, and nothing else."""
        (reason,) = [line for line in self.remarks(output, "lia") if "closed (error 24)" in line]
        for word in ("a liar can keep no secrecy", "secrecies[0] hiv(ann)", "secrecies[1] lies(ann, w1)"):
            self.assertIn(word, reason)


class Checked(Checking):
    @program.needed
    def test_all_are_open(self):
        ran = self.check(POLICY)
        self.assertEqual((ran.returncode, ran.stderr), (0, ""))
        # hiv(ann) -> hiv(bob) has 3 nodes, the view 3 and 1 more than the secret's 1.
        self.assertEqual(self.rows(ran.stdout), {"eve": ["lying", "open", "no", "1", "1", "3", "5"]})
        # ann is ill and bob isn't, so what eve knows is false.
        self.assertEqual(len(self.remarks(ran.stdout, "eve")), 1)
        self.assertIn("know[0] is false in the facts", self.remarks(ran.stdout, "eve")[0])
        self.assertRegex(ran.stdout, r"facts +2 of +100,000")
        self.assertRegex(ran.stdout, r"constants of a domain \(person\) +2 of +1,024")
        self.assertRegex(ran.stdout, r"answers of a user, none yet +0 of +4,096")
        self.assertIn("59,995", ran.stdout)

    @program.needed
    def test_who_is_closed_and_why(self):
        ran = self.check(POLICY + USERS)
        self.assertEqual((ran.returncode, ran.stderr), (1, ""))
        rows = self.rows(ran.stdout)
        self.assertEqual({name: row[1] for name, row in rows.items()},
                         {"eve": "open", "lou": "closed", "max": "open", "tom": "closed", "ida": "closed",
                          "kai": "closed", "con": "closed", "zoe": "open"})
        self.assertEqual([name for name, row in rows.items() if row[2] == "yes"], ["lou"])
        self.assertIn("3 of 8 users are open", ran.stdout)
        reasons = {name: [line for line in self.remarks(ran.stdout,
                                                        name) if "closed (error 24)" in line] for name in rows}
        self.assertEqual({name: len(found) for name, found in reasons.items()},
                         {"eve": 0, "lou": 1, "max": 0, "tom": 1, "ida": 1, "kai": 1, "con": 1, "zoe": 0})
        for name, words, absent in [
                ("lou", ["one of these is true", "secrets[1] hiv(ann)", "secrets[2] hiv(bob)"], "secrets[0]"),
                ("tom", ["the facts contradict", "know[1]", "hiv(bob)"], "know[0]"),
                ("ida", ["entails secrets[1]", "exists x: person . hiv(x)"], "secrets[0]"),
                ("kai", ["entails secrets[0]"], "contradict"), ("con", ["contradicts itself"], "secrets[0]")]:
            with self.subTest(name):
                for word in words:
                    self.assertIn(word, reasons[name][0])
                self.assertNotIn(absent, reasons[name][0])

    @program.with_secrecies
    def test_secrecies(self):
        ran = self.check(OF_2)
        self.assertEqual((ran.returncode, ran.stderr), (1, ""))
        rows = self.rows(ran.stdout)
        self.assertEqual({name: row[1] for name, row in rows.items()},
                         {"eve": "open", "lia": "closed", "ray": "open", "una": "open", "pat": "closed",
                          "sam": "closed"})
        # Of each secrecy two secrets. A sentence's negation has one node more than it, and so has each secret's in the
        # view: of hiv(ann) 2 and 3.
        self.assertEqual(rows["ray"][3:], ["1", "2", "2", "6"])
        # The other secrecy has 3 nodes: 4 and 5. The secret's negation has 2.
        self.assertEqual(rows["una"][3:], ["0", "5", "4", "16"])
        self.assertRegex(ran.stdout, r"secrets of a user, two for each secrecy \(una\) +5 of +16")
        for name, words in [("pat", ["entails the negation of secrecies[0]", "not (hiv(ann))"]),
                            ("sam", ["entails secrecies[1]: hiv(ann)"])]:
            reasons = [line for line in self.remarks(ran.stdout, name) if "closed (error 24)" in line]
            self.assertEqual(len(reasons), 1, reasons)
            for word in words:
                self.assertIn(word, reasons[0])
        self.assertLiar(ran.stdout)

    @program.needed
    def test_what_the_facts_contradict(self):
        ran = self.check(POLICY + USERS)
        noted = {name: [line for line in self.remarks(ran.stdout,
                                                      name) if "is false in the facts" in line]
                                                      for name in self.rows(ran.stdout)}
        self.assertEqual({name: len(found) for name, found in noted.items()},
                         {"eve": 1, "lou": 0, "max": 0, "tom": 1, "ida": 0, "kai": 0, "con": 1, "zoe": 1})
        self.assertIn("know[0]", noted["zoe"][0])

    @program.needed
    def test_a_secret_that_costs_too_much_to_test(self):
        """Twelve pigeons in eleven holes: that two sit in one takes a search far more than 4,000,000 resolutions."""
        pigeons, holes = ([f"{name}{number}" for number in range(count)] for name, count in (("p", 12), ("h", 11)))
        policy = changed(('["person", "ward"]', '["person", "ward"]\nsits = ["pigeon", "hole"]'),
                         ('["w1"]', f'["w1"]\npigeon = {json.dumps(pigeons)}\nhole = {json.dumps(holes)}'),
                         ('["hiv(ann) -> hiv(bob)"]', '["forall p: pigeon . exists h: hole . sits(p, h)"]'),
                         ('["hiv(ann)"]', '["exists h: hole . exists p: pigeon . exists q: pigeon . '
                          'p != q and sits(p, h) and sits(q, h)"]'))
        ran = self.check(policy)
        self.assertEqual((ran.returncode, ran.stderr), (1, ""))
        self.assertEqual(self.rows(ran.stdout)["eve"][1], "closed")
        self.assertIn("secrets[0] costs too much to test", ran.stdout)

    @program.needed
    def test_files_that_are_refused(self):
        ran = self.check(changed(("hiv(ann) -> hiv(bob)", "hiv(ann) => hiv(bob)")))
        self.assertEqual((ran.returncode, ran.stderr), (1, ""))
        self.assertIn(f"{self.directory}/policy:11:19\n", ran.stdout)
        self.assertIn("'->'", ran.stdout)
        ran = self.check(POLICY, "hiv,ann\n")
        self.assertEqual(ran.returncode, 1)
        self.assertIn(f"{self.directory}/facts:1:4\n", ran.stdout)
        self.assertIn("CSV", ran.stdout)

    @program.needed
    def test_a_file_that_is_not_there(self):
        ran = subprocess.run([CHECK, self.directory / "policy", self.file("facts", "")], capture_output=True, text=True)
        self.assertEqual(ran.returncode, 1)
        self.assertIn("isn't there", ran.stdout)

    @program.needed
    def test_its_temporary_files_go(self):
        place = self.directory / "temporary"
        place.mkdir()
        self.assertEqual(self.check(POLICY, env={**os.environ, "TMPDIR": str(place)}).returncode, 0)
        self.assertEqual(list(place.iterdir()), [])

    def test_its_own_words(self):
        for words in (["policy"], ["--json", "policy", "facts"]):
            with self.subTest(words):
                self.assertEqual(subprocess.run([CHECK, *words], capture_output=True).returncode, 2)

    def test_a_directory_of_the_path_that_cannot_be_looked_into(self):
        """As one of another account; here it is one whose name is too long."""
        path = f"/{'x' * 300}{os.pathsep}{self.directory}"
        with unittest.mock.patch.dict(os.environ, {"PATH": path}):
            os.environ.pop("CQE", None)
            self.assertRaises(checking.Unusable, checking.program, self.directory / "tools")
            cqe = self.file("cqe", "#!/bin/sh\n")
            cqe.chmod(0o755)
            self.assertEqual(checking.program(self.directory / "tools"), str(cqe.resolve()))

    def test_a_program_that_is_not_there(self):
        ran = self.check(POLICY, env={**os.environ, "CQE": str(self.directory / "none")})
        self.assertEqual((ran.returncode, ran.stdout), (2, ""))
        self.assertIn("CQE", ran.stderr)


STAND_IN = """#!{python}
import json, sys
words = dict(zip(sys.argv[2::2], sys.argv[3::2]))
if sys.argv[1] == "audit":
    print(json.dumps(dict(entries=[], name="eve", method="lying", standing="closed", secrets=[])))
if sys.argv[1] == "batch":
    for line in sys.stdin:
        name, text = line.split(" ")[0], line.split(" ", 3)[3].strip()
        # The truth of what is known, the test whether it contradicts itself, and the test of the secret.
        print(name, 1, "yes" if not text.startswith("not free") else {{"u0": "yes", "u1": "{spent}"}}[name])
"""


# Stands in for the program: it has no world for the search of a sentence with 'bob', and lia is closed.
OF_SECRECIES = """#!{python}
import json, sys, tomllib
words = dict(zip(sys.argv[2::2], sys.argv[3::2]))
if sys.argv[1] == "audit":
    with open(words["--policy"], "rb") as file:
        user = next(user for user in tomllib.load(file)["users"] if user["name"] == words["--user"])
    is_open = user["name"] != "lia"
    world = lambda text: None if "bob" in text else []
    print(json.dumps({{
        "entries": [], "name": user["name"], "method": user["method"], "standing": "open" if is_open else "closed",
        "secrets": [{{"secret": text, "world": world(text)}} for text in user.get("secrets", []) if is_open],
        "secrecies": [{{"secrecy": text, "true": world(text), "false": []}}
                      for text in user.get("secrecies", []) if is_open]}}))
if sys.argv[1] == "batch":
    for line in sys.stdin:
        print(line.split(" ")[0], 1, "yes")
"""


class Secrecies(Checking):
    """Of the audit of a stand-in for the program: what is said of secrecies, whatever program there is."""

    def test_a_liar_and_a_search_that_is_spent(self):
        cqe = self.file("cqe", OF_SECRECIES.format(python=sys.executable))
        cqe.chmod(0o755)
        ran = self.check(OF_2, env={**os.environ, "CQE": str(cqe)})
        self.assertEqual((ran.returncode, ran.stderr), (1, ""))
        self.assertLiar(ran.stdout)
        spent = [line.split("note: ")[1] for name in self.rows(ran.stdout) for line in self.remarks(ran.stdout, name)
                 if "the search for a world" in line]
        self.assertEqual(spent, [f"the search for a world {what} needs more than 4,000,000" for what in (
            "with hiv(ann) and hiv(bob)", "without hiv(bob)", "with hiv(bob)")])


class Spent(InDirectory):
    """A stand-in for the program says of each search that it is spent."""

    def test_a_secret_that_costs_too_much(self):
        for spent in ("undecided", "error 24"):
            with self.subTest(spent):
                cqe = self.file("cqe", STAND_IN.format(python=sys.executable, spent=spent))
                cqe.chmod(cqe.stat().st_mode | stat.S_IXUSR)
                ran = subprocess.run([CHECK, self.file("policy", POLICY), self.file("facts", FACTS)],
                                     capture_output=True, text=True,
                                     env={**os.environ, "CQE": str(cqe)}, timeout=60)
                self.assertEqual((ran.returncode, ran.stderr), (1, ""))
                self.assertIn("secrets[0] costs too much to test", ran.stdout)
                self.assertIn("4,000,000", ran.stdout)
