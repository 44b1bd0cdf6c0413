"""What the tests of the tools share: files in a directory of their own, and the explanations of what was said."""

import sys
import tempfile
import unittest
from pathlib import Path

import program

sys.path.insert(0, str(program.TOP / "tools"))
sys.dont_write_bytecode = True

from cqe_tools.explaining import Context, Explainer, of_status, printed  # noqa: E402

EXPLAIN = program.TOP / "tools/cqe-explain"
CHECK = program.TOP / "tools/cqe-check"

# Line 9 has the name, 10 the method, 11 what she knows, 12 her secret.
POLICY = """version = 1
[domains]
person = ["ann", "bob"]
ward = ["w1"]
[relations]
hiv = ["person"]
lies = ["person", "ward"]
[[users]]
name = "eve"
method = "lying"
know = ["hiv(ann) -> hiv(bob)"]
secrets = ["hiv(ann)"]
"""
FACTS = "hiv(ann)\nlies(bob, w1)\n"


def changed(*pairs, text=POLICY):
    """The policy with some pieces changed, each of which stands there once."""
    for old, new in pairs:
        assert text.count(old) == 1, old
        text = text.replace(old, new)
    return text


def as_bytes(text):
    return text if isinstance(text, bytes) else text.encode("utf-8")


class InDirectory(unittest.TestCase):
    """Tests with a directory of their own."""

    def setUp(self):
        holder = tempfile.TemporaryDirectory(prefix="cqe-test.")
        self.addCleanup(holder.cleanup)
        self.directory = Path(holder.name)

    def file(self, name, content):
        path = self.directory / name
        path.write_bytes(as_bytes(content))
        return path

    def explained(self, *lines, policy=None, facts=None, script=None, complete=True, **more):
        """The explanations of what was said over these contents of files."""
        named = {}
        for name, content in (("policy", policy), ("facts", facts), ("script", script)):
            if content is not None:
                named[name] = str(self.file(name, content))
        explainer = Explainer(Context(**named, **more), complete)
        for line in lines:
            self.assertTrue(explainer.take(line), line)
        return [finding for finding, _ in explainer.findings()]

    def explained_once(self, *lines, **more):
        found = self.explained(*lines, **more)
        self.assertEqual(len(found), 1, found)
        return found[0]

    def assertSays(self, finding, *words):
        """That an explanation has these words, wherever they stand in it; it has something to do, too."""
        whole = "\n".join(finding.lines()).lower()
        for word in words:
            self.assertIn(word.lower(), whole)
        self.assertTrue(finding.advice, whole)

    def assertPoints(self, finding, line, column, piece):
        """That an explanation points at this piece of a line."""
        self.assertIsNotNone(finding.spot, finding.lines())
        spot = finding.spot
        found = spot.text.data[spot.start:spot.end].decode("utf-8", "replace")
        self.assertEqual((spot.line, spot.column, found), (line, column, piece))
        _, shown, carets = spot.drawn()
        start = carets.index("^")
        self.assertEqual(shown[start:start + len(piece)], piece)
