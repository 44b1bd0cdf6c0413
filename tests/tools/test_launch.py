"""./cqe: it builds the program once, anew behind a change, over what the program stands on alone, and leaves nothing behind.

A script in the place of rt notes what it was called over, and makes a program that says its words.
"""

import os
import shutil
import subprocess
import tempfile
import unittest
from pathlib import Path

ROOT = Path(__file__).resolve().parents[2]

RT = """#!/bin/bash
echo "$* over $(ls crates | tr '\\n' ' ')with $(find . -name must-fail | wc -l) folders of edits" >>"$NOTES"
[[ -e $REFUSES ]] && { echo "rt: one is not proved"; exit 1; }
mkdir -p crates/cqe/out
printf '#!/bin/bash\\necho "the program: $*"\\nexit 7\\n' >crates/cqe/out/cqe
chmod +x crates/cqe/out/cqe
"""

CRATES = """# What stands on what.
low:
aside: low
high may_wait=1: low clap
cqe may_wait=1: high
tests tests_may=Wait: cqe
"""


class Launch(unittest.TestCase):
    def setUp(self):
        made = tempfile.TemporaryDirectory()
        self.addCleanup(made.cleanup)
        self.top = Path(made.name) / "a clone"
        self.temporary = Path(made.name) / "temporary"
        self.notes, self.refuses = Path(made.name) / "notes", Path(made.name) / "refuses"
        kit = Path(made.name) / "kit"
        for folder in (self.top, self.temporary, kit):
            folder.mkdir()
        (kit / "rt").write_text(RT)
        (kit / "rt").chmod(0o755)
        shutil.copy(ROOT / "cqe", self.top)
        (self.top / "crates.txt").write_text(CRATES)
        (self.top / "HANDLES").write_text("Handles allowed: Wait.\n")
        for name in ("low", "aside", "high", "cqe", "tests"):
            (self.top / "crates" / name / "src").mkdir(parents=True)
            (self.top / "crates" / name / "src" / "lib.rt").write_text("fn f() {}\n")
            (self.top / "crates" / name / "must-fail").mkdir()
        self.world = dict(
            os.environ, PATH=f"{kit}:{os.environ['PATH']}", TMPDIR=str(self.temporary),
            NOTES=str(self.notes), REFUSES=str(self.refuses),
        )

    def launch(self, *words, **more):
        ran = subprocess.run([self.top / "cqe", *words], capture_output=True, text=True, env=dict(self.world, **more))
        self.assertEqual(list(self.temporary.iterdir()), [])
        return ran

    def builds(self):
        return self.notes.read_text().splitlines() if self.notes.exists() else []

    def test_it_is_built_once(self):
        first = self.launch("case", "a word")
        self.assertEqual((first.stdout, first.returncode), ("the program: case a word\n", 7))
        self.assertIn("./cqe: building the program", first.stderr)
        again = self.launch()
        self.assertEqual((again.stdout, again.stderr, again.returncode), ("the program: \n", "", 7))
        self.assertEqual(self.builds(), ["ci over cqe high low with 0 folders of edits"])

    def test_a_change_builds_it_anew(self):
        self.launch()
        source = self.top / "crates" / "low" / "src" / "lib.rt"
        stamp = (self.top / "crates" / "cqe" / "out" / "cqe.sources").stat().st_mtime
        os.utime(source, (stamp + 5, stamp + 5))
        self.assertIn("./cqe: building the program", self.launch().stderr)
        self.assertEqual(len(self.builds()), 2)

    def test_where_a_proof_is_open_the_end_of_the_log_is_shown(self):
        self.refuses.touch()
        ran = self.launch("case")
        self.assertEqual((ran.stdout, ran.returncode), ("", 1))
        self.assertIn("./cqe: it can't be built:\nrt: one is not proved\n", ran.stderr)
        self.refuses.unlink()
        self.assertEqual(self.launch("case").stdout, "the program: case\n")

    def test_without_rt_it_says_so(self):
        ran = self.launch("case", PATH=":".join(
            folder for folder in self.world["PATH"].split(":") if not (Path(folder) / "rt").exists()
        ))
        self.assertEqual((ran.stdout, ran.returncode), ("", 1))
        self.assertIn("there is no command rt to build it", ran.stderr)


if __name__ == "__main__":
    unittest.main()
