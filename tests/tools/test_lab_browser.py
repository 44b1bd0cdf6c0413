"""The page of cqe-lab in a headless Chromium: what is typed, read and seen. Without Chromium nothing of it is run.

Where the environment variable CQE_PICTURES names a directory, a picture of each example is put there.
"""

import json
import os
import struct
from pathlib import Path

import browser
import lab_run
import program
from told import FACTS, POLICY, InDirectory

PICTURES = program.TOP / "docs/pictures"
MOST_BYTES = 200_000
WIDE, NARROW = (1600, 1000), (360, 1400)
SCALE = 0.68

# Of each example: whom the picture shows, and the questions that they are asked.
SHOWN = {
    "ward": (["nurse", "clerk", "head"], ["hiv(ann) or hiv(bob)", "hiv(ann)"]),
    "clinic": (["lying", "refusal", "combined"], ["drug(ann)"]),
    "registry": (["refusal", "lying", "combined"], ["drug(ann)", "not drug(ann)"]),
    "hospital": (["registry", "press"], ["has(p17, hiv) or has(p23, hiv)", "has(p17, hiv)"]),
    "statistics": (["bank", "owner", "newspaper", "pupils"],
                   ["exists f: firm . in_branch(f, brewery) and in_region(f, south) and made_loss(f)"]),
    "register": (["clerk", "hotline", "porter"], ["abroad(bob)"]),
}
WITH_SECRECIES = ("register",)
# Of the pictures of a list and of an added secret: the example, the users, and what is done.
LISTS = ("statistics", ["bank", "owner", "newspaper", "pupils"], [("list", "exists f: firm . made_loss(f)")])
PROTECTS = ("ward", ["nurse", "clerk"], [("ask", "hiv(ann) or hiv(bob)"), ("protect", "hiv(bob)")])
FURTHER = {"lists", "protect"}
# The replies and the truth of the last of them, worked out by the rules of the methods.
LAST = {
    # The head was told yes to the first: a no would tell of bob.
    "ward": (["no", "refused", "refused"], "yes"),
    "clinic": (["no", "refused", "no"], "yes"),
    # That she doesn't take the drug is false, and a no would say so. Who was told no before is told yes to its opposite.
    "registry": (["refused", "yes", "yes"], "no"),
    # Who refuses looks at both answers. The press was told yes to the first: a no would tell of p23.
    "hospital": (["refused", "refused"], "yes"),
    "statistics": (["yes", "refused", "yes", "no"], "yes"),
    # A yes says that bob isn't registered, which the porter may learn, and the clerk and the hotline may not. To the
    # hotline a no says nothing.
    "register": (["refused", "no", "yes"], "yes"),
}
# What the page shows of a round: the cards' users and replies, and of each other database its facts.
ROUND = """(() => {
  const round = document.querySelector('.round');
  const texts = (place, what) => [...place.querySelectorAll(what)].map((one) => one.textContent);
  return {
    asked: round.querySelector('.asked .sentence').textContent,
    truth: texts(round, '.truth strong').join(),
    cards: [...round.querySelectorAll('.card')].map((card) => ({
      user: card.dataset.user, reply: card.querySelector('.word').textContent,
      tag: card.querySelector('.tag').textContent,
      rows: [...card.querySelectorAll('.rows tbody tr')].map((row) => texts(row, 'td')),
      late: texts(card, '.why li'),
      worlds: [...card.querySelectorAll('.world')].map((world) => ({
        secrets: texts(world, 'h4 code'), checks: texts(world, '.check'),
        facts: texts(world, '.facts td:nth-child(2) code'), there: texts(world, '.facts td.there code'),
        here: texts(world, '.facts td.here code'),
      })),
    })),
  };
})()"""
FOCUSED = "document.activeElement.id || document.activeElement.textContent.trim().slice(0, 30)"
SEEN = "getComputedStyle(document.activeElement).outlineStyle !== 'none'"


@browser.needed
class OnThePage(InDirectory):
    """Tests with a running lab and a browser that shows its page."""

    def cqe(self):
        return lab_run.stand_in(self.directory)

    def setUp(self):
        super().setUp()
        temporary = self.directory / "temporary"
        temporary.mkdir()
        self.lab = self.enterContext(lab_run.Lab(temporary, self.cqe()))
        self.page = self.enterContext(browser.Browser(self.directory))
        self.page.look(*WIDE)
        self.page.go(self.lab.address)
        self.ready()

    def ready(self):
        """Waits until the page has what it asked for."""
        self.page.wait("document.querySelector('#names input') && document.body.getAttribute('aria-busy') !== 'true' "
                       "&& !document.querySelector('.why[aria-busy=true]')")

    def load(self, example):
        self.page.value(f"document.getElementById('example').value = '{example}'")
        self.page.value("document.querySelector('#loading button').click()")
        self.ready()

    def choose(self, names):
        """Takes these users and no other."""
        self.page.value("for (const box of document.querySelectorAll('#names input')) {"
                        f"box.checked = {json.dumps(names)}.includes(box.value); }}")

    def ask(self, text, act="ask", count=1):
        """Types a sentence, presses Enter, and answers what the page shows of it."""
        self.page.value(f"document.querySelector('#acts input[value={act}]').click();"
                        f"document.getElementById('count').value = {count};"
                        "document.getElementById('question').focus(); document.getElementById('question').select()")
        self.page.type(text)
        self.page.press("Enter")
        self.ready()
        return self.page.value(ROUND)


class Secrecies(OnThePage):
    def test_both_worlds_are_named(self):
        """The stand-in for the program says no to everything, also where a secrecy should be true."""
        policy = POLICY.replace("= 1\n", "= 2\n") + 'secrecies = ["hiv(bob)"]\n'
        self.page.value(f"document.getElementById('policy-text').value = {json.dumps(policy)};"
                        f"document.getElementById('facts-text').value = {json.dumps(FACTS)};"
                        "document.querySelector('#own button').click()")
        self.page.wait("document.getElementById('users').textContent.includes('eve')")
        self.ready()
        shown = self.page.value("document.getElementById('users').textContent")
        self.assertIn("Must conclude neither that this is true nor that it is false:hiv(bob)Must not concludehiv(ann)",
                      shown)
        self.ask("true")
        self.assertEqual(self.page.value("[...document.querySelectorAll('.world h4')].map((one) => one.textContent)"),
                         ["Another database, with hiv(bob)", "Another database, without hiv(bob), hiv(ann)"])
        self.assertIn("hiv(bob): no, and it should be yes",
                      self.page.value("document.querySelector('.world').textContent"))
        self.assertEqual(self.page.errors, [])


class AddedSecrets(OnThePage):
    def test_they_stand_beside_the_others(self):
        self.choose(["nurse", "head"])
        shown = self.ask("hiv(bob)", "protect")
        self.assertEqual((shown["asked"], shown["truth"]), ("op protect hiv(bob)", "no"))
        self.assertEqual([(card["user"], card["reply"], card["tag"]) for card in shown["cards"]],
                         [(name, "protected", "it is a secret from now on") for name in ("nurse", "head")])
        users = self.page.value("[...document.querySelectorAll('.user')].map((one) => one.textContent)")
        self.assertEqual([("Nor, since the operator added ithiv(bob)" in user) for user in users], [True, False, True])
        self.assertEqual(self.page.value("document.querySelector('.why').parentElement.innerText.split('\\n')[0]"),
                         "Why it is safe")
        self.assertEqual([world["secrets"] for world in shown["cards"][0]["worlds"]], [["hiv(ann)", "hiv(bob)"]])

    def test_one_that_comes_too_late(self):
        self.choose(["clerk"])
        (card,) = self.ask("late", "protect")["cards"]
        self.assertEqual((card["reply"], card["tag"], card["late"]),
                         ("unsafe", "it comes too late, and isn't added", ["late"]))
        self.assertIn("Why it comes too late", self.page.value("document.querySelector('.card').textContent"))
        self.assertNotIn("operator added", self.page.value("document.getElementById('users').textContent"))
        self.assertEqual(self.page.errors, [])


class Lists(OnThePage):
    def test_a_row_for_each_instance(self):
        self.choose(["nurse", "clerk"])
        shown = self.ask("exists x: person . exists y: person . drug(x) and hiv(y)", "list", 2)
        names = [["ann", "ann"], ["ann", "bob"], ["bob", "ann"], ["bob", "bob"]]
        for card in shown["cards"]:
            self.assertEqual((card["reply"], card["tag"]), ("done 4", "4 instances"))
            self.assertEqual(card["rows"], [[*row, "no", "no: the truth"] for row in names])
        self.assertEqual(self.page.value("[...document.querySelectorAll('.rows th')].map((one) => one.textContent)"),
                         ["x: person", "y: person", "Reply", "The truth"] * 2)
        self.assertIn("nurse: ann ann no, ann bob no, bob ann no, bob bob no, done 4.",
                      self.page.value("document.getElementById('heard').textContent"))

    def test_where_it_is_not_opened(self):
        shown = self.ask("exists short: person . hiv(short)", "list", 2)
        self.assertEqual([(card["reply"], card["rows"], card["worlds"]) for card in shown["cards"]],
                         [("error 28 1", [], [])] * 3)
        (drawn,) = self.page.value("[...document.querySelectorAll('.round pre')].map((one) => one.textContent)")
        self.assertEqual(drawn.splitlines()[1].index("^"), 32)

    def test_garbage_is_answered(self):
        for act in ("list", "protect"):
            for text in (" ", "a" * 6000, "\u202e\u200b", "<img src=x onerror=document.title='run'>"):
                self.ask(text, act)
        self.assertEqual(self.page.value("[document.images.length, document.title]"), [0, "cqe lab"])
        self.assertEqual(self.page.errors, [])


class TwoPages(OnThePage):
    def test_each_has_its_own_history(self):
        rounds = "[...document.querySelectorAll('.asked .sentence')].map((one) => one.textContent)"
        self.ask("true")
        first = self.page.further()
        self.page.look(*WIDE)
        self.page.go(self.lab.address)
        self.ready()
        self.ask("hiv(ann)", "protect")
        self.ask("hiv(bob)")
        second = self.page.turn_to(first)
        self.assertNotIn("operator added", self.page.value("document.getElementById('users').textContent"))
        self.ask("false")
        self.assertEqual(self.page.value(rounds), ["false", "true"])
        self.page.turn_to(second)
        self.assertEqual(self.page.value(rounds), ["hiv(bob)", "op protect hiv(ann)"])
        self.assertIn("operator added", self.page.value("document.getElementById('users').textContent"))
        self.assertEqual(self.page.errors, [])


class ByTheKeyboard(OnThePage):
    def test_tab_reaches_everything_in_its_order(self):
        order = []
        while len(order) < 60:
            self.page.press("Tab")
            order.append(self.page.value(FOCUSED))
            self.assertTrue(self.page.value(SEEN), order)
            if order[-1] == "act":
                break
        self.assertEqual([order[0], order[1], order[2], order[-2]], ["To the question", "example", "Load", "question"])
        self.assertLess(order.index("Users"), order.index("question"))
        self.page.press("Tab", shift=True)
        self.page.type("true")
        self.page.press("Enter")
        self.ready()
        self.assertEqual(self.page.value(ROUND)["asked"], "true")
        self.assertEqual(self.page.value("document.getElementById('heard').textContent"),
                         "nurse: no. clerk: no. head: no. The truth: no")
        self.assertEqual(self.page.value(FOCUSED), "question")

    def test_the_skip_link_and_a_question_to_try(self):
        self.page.press("Tab")
        self.page.press("Enter")
        self.assertEqual(self.page.value(FOCUSED), "question")
        self.page.value("document.querySelector('#questions button').focus()")
        self.page.press("Enter")
        self.assertEqual(self.page.value("document.getElementById('question').value"), "drug(ann)")
        self.assertEqual(self.page.value(FOCUSED), "question")

    def test_what_to_do_is_chosen_by_arrows(self):
        self.page.value("document.querySelector('#acts input:checked').focus()")
        self.page.press("ArrowDown")
        self.assertEqual(self.page.value("[document.getElementById('act').textContent, "
                                         "document.getElementById('opening').hidden]"), ["List", False])
        for wanted in ("count", "question"):
            self.page.press("Tab")
            self.assertEqual(self.page.value(FOCUSED), wanted)
            self.assertTrue(self.page.value(SEEN))
        self.page.type("exists x: person . hiv(x)")
        self.page.press("Enter")
        self.ready()
        self.assertEqual([card["reply"] for card in self.page.value(ROUND)["cards"]], ["done 2"] * 3)
        self.page.value("document.querySelector('#acts input:checked').focus()")
        self.page.press("ArrowDown")
        self.assertEqual(self.page.value("[document.getElementById('act').textContent, "
                                         "document.getElementById('opening').hidden]"), ["Add", True])
        self.page.press("Tab")
        self.assertEqual(self.page.value(FOCUSED), "question")

    def test_each_field_has_a_label(self):
        bare = ("[...document.querySelectorAll('input, select, textarea')].filter((one) => one.labels.length === 0)"
                ".map((one) => one.id)")
        self.assertEqual(self.page.value(bare), [])
        self.assertEqual(self.page.value("document.getElementById('heard').getAttribute('aria-live')"), "polite")


class AsText(OnThePage):
    def test_what_comes_from_files_and_questions_stays_text(self):
        tag = "<img src=x onerror=document.title='run'><script>document.title='run'</script>"
        policy = POLICY.replace("[[users]]", f"# {tag}\n[[users]]")
        self.page.value(f"document.getElementById('policy-text').value = {json.dumps(policy)};"
                        f"document.getElementById('facts-text').value = {json.dumps(FACTS)};"
                        "document.querySelector('#own button').click()")
        self.page.wait("document.getElementById('users').textContent.includes('eve')")
        self.ready()
        self.assertIn(tag, self.page.value("document.getElementById('users').textContent"))
        self.assertEqual(self.ask(tag)["asked"], tag)
        self.assertEqual(self.page.value("[document.images.length, document.scripts.length, document.title]"),
                         [0, 1, "cqe lab"])
        self.assertEqual(self.page.errors, [])

    def test_garbage_is_answered(self):
        for text in (" ", "a" * 6000, "\u202e\u200b", "'\"&lt;"):
            self.ask(text)
        self.choose([])
        self.page.press("Enter")
        self.page.wait("document.getElementById('trouble').textContent.includes('at least one user')")
        self.assertEqual(self.page.errors, [])


@program.needed
class WithProgram(OnThePage):
    def cqe(self):
        return program.path()

    def fits(self):
        """That nothing stands out of the page at either size, light and dark."""
        for size in (WIDE, NARROW):
            for scheme in ("light", "dark"):
                self.page.look(*size, scheme)
                self.assertLessEqual(self.page.value("document.documentElement.scrollWidth"), size[0])
        self.page.look(*WIDE)

    def keep(self, example):
        """A picture, where a directory for it is named."""
        if os.environ.get("CQE_PICTURES"):
            self.page.value("document.activeElement.blur(); document.querySelector('#asking details').open = false;"
                            "window.scrollTo(0, 0)")
            Path(os.environ["CQE_PICTURES"], f"{example}.png").write_bytes(self.page.picture(*WIDE, SCALE))

    def test_examples(self):
        for example, (names, questions) in SHOWN.items():
            if example in WITH_SECRECIES and not program.knows_secrecies():
                continue
            with self.subTest(example):
                self.load(example)
                self.choose(names)
                for text in questions:
                    shown = self.ask(text)
                replies, truth = LAST[example]
                self.assertEqual((shown["asked"], shown["truth"]), (questions[-1], truth))
                self.assertEqual([(card["user"], card["reply"]) for card in shown["cards"]], list(zip(names, replies)))
                for card in shown["cards"]:
                    tags = {"refused": "withheld", truth: "the truth"}
                    self.assertEqual(card["tag"], tags.get(card["reply"], "a lie"))
                self.assertWorlds(shown, example, names, questions)
                self.fits()
                self.keep(example)
        self.assertEqual(self.page.errors, [])

    def test_files_that_are_refused(self):
        for policy, facts, said in (("", "", "cqe: policy 2 version"), ("\u202e<img src=x>", "", "cqe: policy 1"),
                                    (POLICY, "<img src=x onerror=document.title='run'>", "cqe: facts 1 1")):
            self.page.value(f"document.getElementById('policy-text').value = {json.dumps(policy)};"
                            f"document.getElementById('facts-text').value = {json.dumps(facts)};"
                            "document.querySelector('#own button').click()")
            self.page.wait(f"document.getElementById('trouble').textContent.includes({json.dumps(said)})")
            self.ready()
        self.assertEqual(self.page.value("[document.images.length, document.title]"), [0, "cqe lab"])
        self.assertEqual(self.page.errors, [])

    def show(self, example, names, acts):
        """What the page shows of the last of some acts as these users of an example."""
        self.load(example)
        self.choose(names)
        for act, text in acts:
            shown = self.ask(text, act)
        return shown

    def test_lists(self):
        """That a firm made a loss is a secret; the owner of cedar knows that his own made none."""
        shown = self.show(*LISTS)
        replies = [["refused"] * 4, ["refused", "refused", "no", "refused"], ["no"] * 4, ["no"] * 4]
        truths = ["yes", "yes", "no", "no"]
        tags = {"refused": ("withheld", "withheld"), "no": ("a lie", "the truth")}
        for card, its in zip(shown["cards"], replies, strict=True):
            self.assertEqual(card["reply"], "done 4")
            rows = zip(["alder", "birch", "cedar", "dogwood"], its, truths)
            self.assertEqual(card["rows"], [[firm, reply, f"{truth}: {tags[reply][truth == 'no']}"]
                                            for firm, reply, truth in rows])
            self.assertTrue(card["worlds"])
            for world in card["worlds"]:
                self.assertTrue(all(line.startswith("Checked: ") for line in world["checks"]))
        self.fits()
        self.keep("lists")
        self.assertEqual(self.page.errors, [])

    def test_added_secrets(self):
        """Each was told that one of the two has hiv. Who is lied to has to be able to deny both."""
        shown = self.show(*PROTECTS)
        nurse, clerk = shown["cards"]
        self.assertEqual((nurse["user"], nurse["reply"], nurse["worlds"]), ("nurse", "unsafe", []))
        self.assertEqual(nurse["late"], ["hiv(ann)", "hiv(bob)", "he was told yes to (hiv(ann) or hiv(bob))"])
        self.assertEqual((clerk["user"], clerk["reply"]), ("clerk", "protected"))
        self.assertEqual([world["secrets"] for world in clerk["worlds"]], [["hiv(ann)"], ["hiv(bob)"]])
        self.fits()
        self.keep("protect")
        self.assertEqual(self.page.errors, [])

    def assertWorlds(self, shown, example, names, questions):
        """That the page shows the other databases that the program names for the same questions."""
        trial = self.lab.opened(example=example)["trial"]
        for text in questions:
            self.lab.shown("ask", trial=trial, users=names, text=text)
        for card in shown["cards"]:
            why = self.lab.shown("why", trial=trial, user=card["user"], number=len(questions))
            found = [{"secrets": [secret["text"] for secret in world["secrets"]],
                      "facts": world["there_alone"]["items"] + world["in_both"]["items"],
                      "there": world["there_alone"]["items"], "here": world["here_alone"]["items"]}
                     for world in why["worlds"]]
            self.assertTrue(found)
            for world, its in zip(card["worlds"], found, strict=True):
                self.assertEqual(len(world["checks"]), 2)
                self.assertTrue(all(line.startswith("Checked: ") for line in world.pop("checks")))
                self.assertEqual({key: sorted(value) for key, value in world.items()},
                                 {key: sorted(value) for key, value in its.items()})


class Pictures(InDirectory):
    def test_each_example_has_a_small_one(self):
        self.assertEqual({path.stem for path in PICTURES.iterdir()} - FURTHER, set(SHOWN))
        for picture in PICTURES.iterdir():
            data = picture.read_bytes()
            self.assertEqual(data[:8], b"\x89PNG\r\n\x1a\n")
            self.assertLess(len(data), MOST_BYTES)
            self.assertEqual(struct.unpack(">II", data[16:24]), tuple(round(side * SCALE) for side in WIDE))
