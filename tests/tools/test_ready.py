"""What the gate refuses before it proves anything, and the width of lines: tests/ready finds nothing, and it finds what is planted."""
import importlib.machinery
import importlib.util
import os
import subprocess
import tempfile
import unittest

ROOT = os.path.dirname(os.path.dirname(os.path.dirname(os.path.realpath(__file__))))


def ready():
    loader = importlib.machinery.SourceFileLoader("ready", f"{ROOT}/tests/ready")
    made = importlib.util.module_from_spec(importlib.util.spec_from_loader("ready", loader))
    loader.exec_module(made)
    return made


class Ready(unittest.TestCase):
    def test_the_repository_is_ready(self):
        ran = subprocess.run([f"{ROOT}/tests/ready"], capture_output=True, text=True)
        self.assertEqual((ran.stdout, ran.returncode), ("ready\n", 0))

    def test_a_wide_line_is_found(self):
        with tempfile.TemporaryDirectory() as crate:
            os.mkdir(f"{crate}/src")
            with open(f"{crate}/src/lib.rt", "w", encoding="utf-8") as it:
                it.write("x" * 100 + "\n" + "λ" * 101 + "\n" + '"' + "x" * 101 + '"\n')
            found = list(ready().wide_lines(crate))
        self.assertEqual(len(found), 1)
        self.assertTrue(found[0].endswith("lib.rt:2: 101 columns"))

    def test_an_edit_fits_where_its_text_stands_once(self):
        with tempfile.TemporaryDirectory() as crate:
            os.mkdir(f"{crate}/src")
            with open(f"{crate}/src/lib.rt", "w", encoding="utf-8") as it:
                it.write("one two two\n")
            said = []
            for old in ("one", "two", "three"):
                with open(f"{crate}/an.edit", "w", encoding="utf-8") as it:
                    it.write(f"file: src/lib.rt\nold: {old}\nnew: four\n")
                said.append(ready().unfit(f"{crate}/an.edit", crate))
            with open(f"{crate}/an.edit", "w", encoding="utf-8") as it:
                it.write("file: src/gone.rt\nold: one\nnew: four\n")
            said.append(ready().unfit(f"{crate}/an.edit", crate))
        self.assertEqual(said, [
            None, "not once in src/lib.rt: two", "not once in src/lib.rt: three", "there is no src/gone.rt",
        ])


if __name__ == "__main__":
    unittest.main()
