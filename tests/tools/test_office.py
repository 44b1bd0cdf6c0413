"""The office that tests/office.py makes up: it keeps the limits, and its users are admitted and asked what matters."""

import subprocess
import sys
import tomllib
from collections import Counter

import program
from dossier_writer import Writer
from told import InDirectory  # makes the tools' modules found, too

from cqe_tools import facts, policies, schemas
from cqe_tools.clauses import is_true
from cqe_tools.places import Text
from cqe_tools.sentences import nodes_of, sentence_of

OFFICE = program.TOP / "tests/office.py"
SMALL = {"constants": 8, "facts": 90, "users": 24, "nodes": 400, "asks": 30}
TURN = 60  # so many users have each method, each way and each budget together


class Made:
    """The files of an office, read by the tools."""

    def __init__(self, directory):
        self.policy = policies.PolicyFile.of_file(str(directory / "policy"))
        self.schema = self.policy.schema()
        self.users = tomllib.loads(self.policy.source)["users"]
        self.facts = facts.read(self.schema, Text.of_file(str(directory / "facts")))
        self.asks = {user["name"]: (directory / "asks" / user["name"]).read_text().splitlines() for user in self.users}


class OfOffices(InDirectory):
    def make(self, name="office", **sizes):
        directory = self.directory / name
        words = [part for size, number in sizes.items() for part in (f"--{size}", str(number))]
        done = subprocess.run([sys.executable, OFFICE, directory, *words], capture_output=True, text=True, timeout=120)
        self.assertEqual((done.returncode, done.stdout, done.stderr), (0, "", ""))
        return directory

    def files(self, directory):
        return {path.relative_to(directory): path.read_bytes() for path in directory.rglob("*") if path.is_file()}


class Limits(OfOffices):
    def within(self, made, step=1):
        """Looks at every limit of docs/FORMATS.md: of the policy, the facts, and the history of every `step`th user."""
        self.assertIsNone(schemas.refusal(*made.policy.declarations()))
        self.assertEqual(made.policy.version(), 2)
        self.assertLessEqual(len(made.facts), schemas.FACTS)
        self.assertEqual(len({user["name"] for user in made.users}), len(made.users))
        for number, user in enumerate(made.users):
            with self.subTest(user["name"]):
                self.user_within(made, user)
                if number % step == 0:
                    self.history_within(made, user)

    def user_within(self, made, user):
        self.assertLessEqual(user.keys(), set(policies.USER_KEYS_OF_2))
        self.assertIn(user["method"], policies.METHODS)
        self.assertRegex(user["token"], policies.TOKEN)
        self.assertTrue(1 <= user.get("budget", schemas.DEFAULT_BUDGET) <= schemas.BUDGET)
        self.assertLessEqual(len(user.get("know", [])), schemas.KNOWN)
        self.assertLessEqual(len(user.get("secrecies", [])), schemas.SECRECIES)
        self.assertTrue(1 <= len(policies.all_secrets(user)) <= schemas.SECRETS)
        for key in policies.SENTENCE_KEYS:
            most = schemas.SECRECY_NODES if key == "secrecies" else schemas.SENTENCE_NODES
            for text in user.get(key, []):
                self.assertLessEqual(len(text.encode()), schemas.TEXT_BYTES)
                self.assertLessEqual(nodes_of(made.schema, text.encode()), most)
        self.assertLessEqual(policies.view_nodes(made.schema, user), schemas.FIRST_VIEW_NODES)

    def history_within(self, made, user):
        """Each question fits, also where each is told to be false."""
        texts = made.asks[user["name"]]
        view = policies.view_nodes(made.schema, user)
        for text in texts:
            nodes = nodes_of(made.schema, text.encode())
            self.assertLessEqual(nodes, schemas.SENTENCE_NODES)
            self.assertLessEqual(view + nodes, schemas.VIEW_NODES)
            view += nodes + 1
        self.assertLessEqual(len(texts), schemas.ANSWERS)
        self.assertLessEqual(sum(len(text.encode()) for text in texts), schemas.ANSWERED_BYTES)

    def test_a_small_office_keeps_them(self):
        made = Made(self.make(**SMALL))
        self.within(made)
        self.assertEqual(len(made.users), SMALL["users"])
        self.assertEqual(len(made.facts), SMALL["facts"])
        self.assertEqual({len(texts) for texts in made.asks.values()}, {SMALL["asks"]})

    def test_a_view_with_the_largest_sentences_keeps_them(self):
        made = Made(self.make(users=12, facts=6000, asks=4096))
        self.within(made, step=3)
        self.assertEqual({made.schema.size(domain) for domain in made.schema.domains}, {schemas.CONSTANTS})
        self.assertGreater(min(policies.view_nodes(made.schema, user) for user in made.users), 39_000)
        largest = max(nodes for user in made.users for nodes in policies.secret_nodes(made.schema, user))
        self.assertEqual(largest, 1 + 1024 * 19)
        counts = [(len(user.get("know", [])), len(user.get("secrecies", [])), len(policies.all_secrets(user)))
                  for user in made.users]
        self.assertEqual([max(column) for column in zip(*counts)], [schemas.KNOWN, schemas.SECRECIES, schemas.SECRETS])

    def test_each_kind_of_user_is_there(self):
        made = Made(self.make(**{**SMALL, "users": TURN, "asks": 0}))
        kinds = Counter((user["method"], user.get("budget")) for user in made.users)
        self.assertEqual(len(kinds), 15)
        self.assertEqual(set(kinds.values()), {4})


class Bytes(OfOffices):
    def test_a_seed_makes_the_same_office(self):
        self.assertEqual(self.files(self.make("one", **SMALL)), self.files(self.make("two", **SMALL)))
        other = self.files(self.make("three", **SMALL, seed=2))
        self.assertTrue(all(other[path] != data for path, data in self.files(self.directory / "one").items()))

    def test_a_longer_list_begins_with_the_shorter_one(self):
        short, long = (Made(self.make(f"of {asks}", **{**SMALL, "asks": asks})) for asks in (30, 60))
        for name, texts in short.asks.items():
            self.assertEqual(long.asks[name][:30], texts)

    def test_sizes_that_cannot_be_are_refused(self):
        for words, why in ((["--users", "257"], "256"), (["--facts", "9"], "constants"), (["--nodes", "x"], "40000")):
            done = subprocess.run([sys.executable, OFFICE, self.directory / "none", *words], capture_output=True, text=True)
            self.assertNotEqual(done.returncode, 0)
            self.assertIn(why, done.stderr)


class Meaning(OfOffices):
    def test_what_users_know_is_true(self):
        made = Made(self.make(**SMALL))
        for user in made.users:
            for text in user.get("know", []):
                self.assertTrue(is_true(made.schema, made.facts, sentence_of(made.schema, text.encode())), text)

    def test_users_are_admitted_and_meet_each_mark(self):
        directory = self.make(constants=4, facts=30, users=12, nodes=80, asks=9)
        policy, stated = ((directory / name).read_bytes() for name in ("policy", "facts"))
        marks = {}
        for name in Made(directory).asks:
            writer = Writer(policy, stated, name)
            self.assertEqual(writer.standing, "open", name)
            for text in (directory / "asks" / name).read_text().splitlines():
                marks.setdefault(writer.method, set()).add(writer.ask(text))
        self.assertEqual({method: found & {"yes", "no"} for method, found in marks.items()},
                         dict.fromkeys(policies.METHODS, {"yes", "no"}))
        self.assertIn("refused", marks["refusal"])
