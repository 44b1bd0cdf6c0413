"""The manual pages: that man shows them without a warning, that cqe(1) has all codes, that its files are good ones, and
that each sentence of cqe-sentences(7) is answered as said.

There a sentence stands behind .TP and .B, and its reply begins the next line: by the facts of the hospital in the
sections EXAMPLES and SLIPS OF MEANING, over a small schema in SLIPS OF FORM.
"""

import hashlib
import re
import shutil
import subprocess
import sys
import tempfile
import unittest
from pathlib import Path

sys.path.insert(0, str(Path(__file__).resolve().parent))
import program

ROOT = Path(__file__).resolve().parents[2]
CQE = ROOT / "docs" / "cqe.1"
FORMATS = ROOT / "docs" / "FORMATS.md"
SENTENCES = ROOT / "docs" / "cqe-sentences.7"
HOSPITAL = ROOT / "examples" / "hospital"
SMALL = """domain person = ann, bob
domain ward = north, south
relation hiv(person)
relation drug(person)
relation lies_in(person, ward)
relation closed()
method lying
secret false
"""


def section(title: str) -> list[tuple[str, str]]:
    """The sentences of a section with their replies."""
    page = SENTENCES.read_text(encoding="utf-8")
    text = re.search(rf"^\.SH {title}\n(.*?)^\.SH ", page, re.DOTALL | re.MULTILINE).group(1)
    text = text.replace("\\-", "-").replace("\\(dq", '"')
    return re.findall(r"^\.TP\n\.B (.*)\n(yes|no|error 20 \d+ \d+):", text, re.MULTILINE)


def answers(words: list[str], script: str) -> list[str]:
    ended = subprocess.run([program.path(), *words], input=script, capture_output=True, text=True, timeout=900)
    if ended.returncode != 0:
        raise AssertionError(ended.stderr)
    return ended.stdout.splitlines()


class Pages(unittest.TestCase):
    @unittest.skipUnless(shutil.which("man"), "needs man")
    def test_no_warning(self) -> None:
        pages = sorted(ROOT.glob("docs/*.[1-9]"))
        self.assertIn(SENTENCES, pages)
        for page in pages:
            with self.subTest(page=page.name):
                shown = subprocess.run(["man", "--warnings", "-l", str(page)], capture_output=True, text=True)
                self.assertEqual((shown.returncode, shown.stderr), (0, ""))
                self.assertIn("NAME", shown.stdout)


class Codes(unittest.TestCase):
    """That what docs/FORMATS.md has a code for stands in cqe(1)."""

    def rows(self, heading: str, column: int = 0) -> list[str]:
        """A column of the first table behind a line that begins so."""
        text = FORMATS.read_text(encoding="utf-8")
        table = re.search(rf"^{re.escape(heading)}.*?\n\n?(\|.*?)\n\n", text, re.DOTALL | re.MULTILINE).group(1)
        return [line.split("|")[column + 1].strip() for line in table.splitlines()[2:]]

    def test_replies_and_complaints(self) -> None:
        page = re.sub(r"\\f.", "", CQE.read_text(encoding="utf-8"))
        for reply in self.rows("## Replies"):
            for word in re.findall(r"`([a-z]+(?: \d+)?)", reply):
                self.assertRegex(page, rf"\n\.BR? .*\b{word}\b", word)
        statuses = self.rows("## Status and complaints")
        self.assertEqual(len(statuses), 14)
        for status, complaint in zip(statuses, self.rows("## Status and complaints", 2), strict=True):
            said = re.match(r"`(cqe: [a-z ]*[a-z])", complaint)
            self.assertRegex(page, rf'\n\.BR? {status}(\n| ", " "{re.escape(said[1])})' if said else r"\n\.B 0\n")
        for cause in self.rows("CAUSE is the first of these"):
            self.assertRegex(page, rf"\n\.BI? {re.match('`([a-z ]*[a-z])', cause)[1]}\b")

    def test_keys_and_lines(self) -> None:
        """That the section FILES TO WRITE has each key of a policy's user and each line of a case."""
        page = CQE.read_text(encoding="utf-8").partition(".SH FILES TO WRITE\n")[2].partition(".SH ")[0]
        keys, lines = self.rows("## The policy file"), self.rows("## Scripts of `case`")
        words = {word for cell in keys + lines for word in re.findall(r"`([a-z]+)", cell)}
        self.assertLessEqual({"know", "secrecies", "secrecy", "token"}, words)
        for word in sorted(words):
            self.assertRegex(page, rf"\b{word}\b")

    def test_kinds(self) -> None:
        page = CQE.read_text(encoding="utf-8").partition(".SH KINDS\n")[2]
        kinds = {title: re.findall(r"^\.BI? (\d)\b", text, re.MULTILINE)
                 for title, text in re.findall(r"\.SS (\w+)\n(.*?)(?=\.S[SH] )", page, re.DOTALL)}
        text = FORMATS.read_text(encoding="utf-8")
        policy = text.partition("The first check that fails is the refusal:")[2].partition("\n")[0]
        self.assertEqual(set(kinds["Policy"]), set(re.findall(r"\b[1-9]\b", policy)))
        self.assertEqual(kinds["Scripts"], sorted(self.rows("Declarations may be mixed")))
        self.assertEqual(kinds["Sentences"], self.rows("A text that is no sentence is refused"))
        self.assertEqual(kinds["Facts"], ["1", "2", "3"])


@program.needed
class Files(unittest.TestCase):
    """The files of the section FILES TO WRITE of cqe(1)."""

    def test_they_are_good_ones(self) -> None:
        page = CQE.read_text(encoding="utf-8").partition(".SH FILES TO WRITE\n")[2].partition(".SH ")[0]
        page = page.replace("\\-", "-").replace("\\(aq", "'")
        case, policy, facts = re.findall(r"^\.nf\n(.*?)^\.fi$", page, re.DOTALL | re.MULTILINE)
        self.assertEqual(answers(["case"], case), ["no", "yes"])
        self.assertIn(hashlib.sha256(b"night shift").hexdigest(), policy)
        with tempfile.TemporaryDirectory() as place:
            for name, content in (("policy", policy), ("facts", facts)):
                Path(place, name).write_text(content)
            files = ["--policy", f"{place}/policy", "--facts", f"{place}/facts", "--journals", place]
            self.assertEqual(answers(["init", *files], ""), [])
            self.assertEqual(answers(["batch", *files], "nurse 1 ask hiv(ann)\n"), ["nurse 1 no"])


@program.needed
class Sentences(unittest.TestCase):
    def test_truth(self) -> None:
        told = section("EXAMPLES") + section("SLIPS OF MEANING")
        self.assertEqual(len(told), 12)
        with tempfile.TemporaryDirectory() as journals:
            files = ["--policy", f"{HOSPITAL}.policy", "--facts", f"{HOSPITAL}.facts", "--journals", journals]
            answers(["init", *files], "")
            script = "".join(f"quality 1 ask {sentence}\n" for sentence, _ in told)
            self.assertEqual(answers(["batch", *files], script), [f"quality 1 {reply}" for _, reply in told])

    def test_slips(self) -> None:
        told = section("SLIPS OF FORM")
        self.assertEqual(len(told), 18)
        script = SMALL + "".join(f"ask {sentence}\n" for sentence, _ in told)
        self.assertEqual(answers(["case"], script), [reply for _, reply in told])


if __name__ == "__main__":
    unittest.main()
