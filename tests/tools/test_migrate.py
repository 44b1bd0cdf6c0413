"""Journals of version 1 in real files, which the program names and moves to another directory."""

import program
from told import FACTS, POLICY, InDirectory

RON = """[[users]]
name = "ron"
method = "refusal"
know = []
secrets = ["hiv(ann)"]
"""
ASK = "eve 1 ask lies(bob, w1)\n"


@program.needed
class Moves(InDirectory):
    def setUp(self):
        super().setUp()
        self.files = ["--policy", self.file("p", POLICY + RON), "--facts", self.file("f", FACTS)]
        for name in ("old", "new"):
            (self.directory / name).mkdir()

    def cqe(self, command, journals, *more, given=""):
        """The status of a command over a directory of journals, what it wrote and what it complained of."""
        ran = program.run(command, *self.files, "--journals", self.directory / journals, *more, given=given.encode())
        return ran.returncode, ran.stdout.decode(), ran.stderr.decode()

    def migrate(self):
        return self.cqe("migrate", "old", "--to", self.directory / "new")

    def bytes(self, journals):
        return {path.name: path.read_bytes() for path in (self.directory / journals).iterdir()}

    def test_a_site_moves(self):
        self.assertEqual(self.cqe("init", "old"), (0, "", ""))
        told = self.cqe("batch", "old", given=ASK)
        self.assertEqual((told[0], told[2]), (0, ""))
        made = self.bytes("old")
        for name, data in made.items():
            self.file(f"old/{name}", data[:7] + b"1" + data[8:])
        old = self.bytes("old")
        said = "cqe: journal eve old version\ncqe: journal ron old version\n"
        self.assertEqual(self.cqe("batch", "old"), (10, "", said))
        self.assertEqual(self.migrate(), (0, "", ""))
        self.assertEqual(self.bytes("new"), made)
        self.assertEqual(self.cqe("batch", "new", given=ASK), told)
        self.assertEqual(self.migrate(), (10, "", "cqe: journal eve not empty\n"))
        self.assertEqual(self.bytes("old"), old)


def user(name, method, know, *secrets):
    """The table of a user in a policy."""
    listed = ", ".join(f'"{secret}"' for secret in secrets)
    return f'\n[[users]]\nname = "{name}"\nmethod = "{method}"\nknow = ["{know}"]\nsecrets = [{listed}]\n'


RULE = "forall x: person . drug(x) -> hiv(x)"
EITHER = "hiv(ann) or hiv(bob)"
WARD = (
    'version = 1\n\n[domains]\nperson = ["ann", "bob"]\n\n[relations]\ndrug = ["person"]\nhiv = ["person"]\n'
    + user("eve", "lying", RULE, "hiv(ann)")
    + user("ron", "refusal", RULE, "hiv(ann)")
    + user("kim", "combined", RULE, "hiv(ann)", "hiv(bob)")
    + user("lou", "lying", EITHER, "hiv(ann)", "hiv(bob)")
    + user("max", "combined", EITHER, "hiv(ann)", "hiv(bob)")
    + user("tom", "refusal", "hiv(bob)", "hiv(ann)")
)


@program.needed
class MovesAWard(InDirectory):
    """Six users, two of whom aren't admitted; the liar was told once that Ann doesn't take the drug."""

    def test_six_journals_move(self):
        files = ["--policy", self.file("p", WARD), "--facts", self.file("f", "hiv(ann)\ndrug(ann)\n")]

        def cqe(command, journals, *more, given=""):
            journals = ["--journals", self.directory / journals]
            ran = program.run(command, *files, *journals, *more, given=given.encode())
            return ran.returncode, ran.stdout.decode(), ran.stderr.decode()

        for name in ("old", "new"):
            (self.directory / name).mkdir()
        self.assertEqual(cqe("init", "old"), (0, "", ""))
        told = cqe("batch", "old", given="eve 1 ask drug(ann)\n")
        self.assertEqual(told[:2], (0, "eve 1 no\n"))
        entry = b"\x01\x02\x00\x09drug(ann)\x00"
        self.assertEqual((self.directory / "old/eve.log").read_bytes()[72:], entry)
        names = ["eve", "ron", "kim", "lou", "max", "tom"]
        for name in names:
            path = self.directory / f"old/{name}.log"
            data = path.read_bytes()
            self.assertEqual(data[:8], b"CQEJRNL2")
            path.write_bytes(data[:7] + b"\x31" + data[8:])
        old = {name: (self.directory / f"old/{name}.log").read_bytes() for name in names}
        said = "".join(f"cqe: journal {name} old version\n" for name in names)
        self.assertEqual(cqe("batch", "old"), (10, "", said))
        self.assertEqual(cqe("migrate", "old", "--to", self.directory / "new"), (0, "", ""))
        again = cqe("batch", "new", given="eve 1 ask hiv(bob)\n")
        self.assertEqual(again[:2], (0, "eve 1 no\n"))
        for name in names:
            self.assertEqual((self.directory / f"old/{name}.log").read_bytes(), old[name])
