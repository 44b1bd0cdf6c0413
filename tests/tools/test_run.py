"""tests/run over a few tests that were made for it."""

import os
import shutil
import subprocess
import sys

import program
from told import InDirectory

MODULE = """import unittest
import program

class Some(unittest.TestCase):
    def test_it(self):
        self.assertEqual({number}, 1)

    @program.needed
    def test_the_program(self):
        self.assertTrue(program.path())
"""


class Runs(InDirectory):
    def setUp(self):
        super().setUp()
        (self.directory / "tests/tools").mkdir(parents=True)
        (self.directory / "tests/server").mkdir()
        for name in ("run", "tools/program.py"):
            shutil.copy(program.TOP / "tests" / name, self.directory / "tests" / name)
        self.program = self.file("cqe", "#!/bin/sh\n")
        self.program.chmod(0o755)

    def run_tests(self, *words, cqe=None):
        """The status and the last line of tests/run here."""
        given = {name: value for name, value in os.environ.items() if name not in ("CQE", program.WITHOUT)}
        if cqe:
            given["CQE"] = str(cqe)
        words = [sys.executable, self.directory / "tests/run", *words]
        ran = subprocess.run(words, capture_output=True, text=True, env=given)
        return ran.returncode, ran.stdout.splitlines()[-1]

    def test_what_passes_and_fails_is_counted(self):
        self.file("tests/tools/test_right.py", MODULE.format(number=1))
        self.assertEqual(self.run_tests(cqe=self.program), (0, "2 passed, 0 failed"))
        self.file("tests/tools/test_wrong.py", MODULE.format(number=2))
        self.file("tests/tools/test_broken.py", "import nothing_of_this_name\n")
        script = self.file("tests/server/test_script", "#!/bin/sh\nexit 3\n")
        script.chmod(0o755)
        self.file("tests/server/test_notes", "no program\n")
        self.assertEqual(self.run_tests(cqe=self.program), (1, "3 passed, 3 failed"))
        self.assertEqual(self.run_tests("right", cqe=self.program), (0, "2 passed, 0 failed"))

    def test_without_the_program(self):
        self.file("tests/tools/test_right.py", MODULE.format(number=1))
        self.assertEqual(self.run_tests("--without-program"), (0, "1 passed, 0 failed"))
        self.assertEqual(self.run_tests(), (1, "0 passed, 1 failed"))
        self.assertEqual(self.run_tests(cqe=self.directory / "none")[0], 1)

    def test_a_name_that_is_not_there(self):
        self.assertEqual(self.run_tests("--quick", cqe=self.program)[0], 2)
