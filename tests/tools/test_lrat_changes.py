"""cqe-lrat on dossiers of which something was changed: a mark, a fact of a world, a number of a chain, a line."""

import random
import unittest

import lrat_checker
from dossier_examples import (FIRST, all_facts, all_written, example, files_of, joined, pairs_of, refusal, replaced,
                              users, written)
from dossier_writer import Writer, holds, is_right

from cqe_tools import dossiers


class Changes(unittest.TestCase):
    """Dossiers of which something was changed."""

    def test_forms(self):
        """Each of these lines in the place of one of the dossier, and how it is refused."""
        for number, line, kind in (
                (1, "dossier 2 nurse lying open", 1), (1, "dossier 1 clerk lying open", 1),
                (1, "dossier 1 nurse open", 1),
                (1, "dossier 1 nurse lying closed", 6), (1, "dossier 1 nurse lying sealed", 6), (2, "admission ", 1),
                (2, "", 1), (2, "admission\r", 1), (3, "follows", 6), (3, "follows ", 1), (3, "open", 1),
                (3, "open ", 1),
                (3, "open  -", 1), (3, "open - ", 1), (3, "open\t-", 1), (4, "ask no ", 1), (4, "ask no", 1),
                (4, "ask", 1), (4, "ask  no drug(ann)", 1), (4, "ask protected drug(ann)", 1), (4, "protect ", 1),
                (4, "protect", 1), (4, "protect  ", 2), (4, "protect hiv(ann)", 7), (4, "ask no drug(ann)\r", 2),
                (4, "ask no true" + " " * 4093, 2), (4, "protect true", 7), (4, "protect hiv(eve)", 2),
                (5, "follows ", 1),
                (6, "line : 12 3 11 7 10 ", 1), (6, "line: 12 3 11 7 10", 1), (6, "line :  12 3 11 7 10", 1),
                (6, "line :", 1), (6, "line : ", 1), (6, "line : 12 03 11 7 10", 1),
                (6, "line : 12 3 11 7 2147483647", 1),
                (6, "line 2 : 12 3 11 7", 1), (6, "line +02 : 12 3 11 7", 1), (6, "line +2147483647 : 12 3 11 7", 1),
                (6, "end", 3), (7, "end ", 1), (7, "End", 1), (9, "done", 1), (9, "done 01", 1), (9, "done 2", 1),
                (9, "done 1 ", 1), (9, "done 1\n", 1), (9, "done 1\n\n", 1)):
            with self.subTest(line):
                lines = FIRST.splitlines()
                found = refusal(example("ward"), "nurse", joined(lines[:number - 1] + [line] + lines[number:]))
                self.assertEqual(found, (kind, number + (kind == dossiers.UNSAFE or "\n" in line)))
        for line in ("line : 12 3 11 7 2147483646", "line +2147483646 : 12 3 11 7 10", "line : 13"):
            lines = FIRST.splitlines()
            self.assertEqual(refusal(example("ward"), "nurse", joined(lines[:5] + [line] + lines[6:])), (3, 7))

    def test_the_last_line_may_have_no_end(self):
        self.assertIsNone(refusal(example("ward"), "nurse", FIRST.removesuffix("\n")))

    def test_a_text_keeps_its_blanks(self):
        writer = Writer(example("ward").policy, example("ward").facts, "nurse")
        self.assertEqual(writer.ask("  drug( ann )\t "), "no")
        self.assertIsNone(refusal(example("ward"), "nurse", writer.text()))

    def test_what_the_formats_say(self):
        ward, lines = example("ward"), FIRST.splitlines(keepends=True)
        self.assertIsNone(refusal(ward, "nurse", FIRST))
        for number, old, new, why in ((4, "no", "yes", (4, 4)), (3, "-", "hiv(ann)", (3, 3)),
                                      (6, "12 3 11", "12 3", (3, 7)), (9, lines[8], "", (1, 9))):
            changed = [line.replace(old, new) if at == number else line for at, line in enumerate(lines, 1)]
            self.assertEqual(refusal(ward, "nurse", "".join(changed)), why)

    def test_marks(self):
        for files, name, writer in all_written():
            for number, line in enumerate(writer.lines):
                word, _, rest = line.partition(" ")
                for mark in {"yes", "no", "refused", "undecided"} - {rest.split(" ")[0]} if word == "ask" else ():
                    changed = replaced(writer, number, f"ask {mark} {rest.partition(' ')[2]}")
                    wanted = (dossiers.FORM, number + 2) if mark == "undecided" else (dossiers.MARK, number + 1)
                    self.assertEqual(refusal(files, name, changed), wanted)

    def test_facts_of_worlds(self):
        draw, right = random.Random(4), 0
        for files, name, writer in all_written():
            every = all_facts(writer.schema)
            for number, block in writer.blocks.items():
                for fact in draw.sample(every, min(len(every), 3)) if not block.follows else ():
                    world = block.world ^ {fact}
                    is_right = all(holds(world, formula) == stated for formula, stated in block.signed)
                    changed = replaced(writer, number - 1, "open " + writer.printed(world))
                    self.assertEqual(refusal(files, name, changed), None if is_right else (dossiers.VERDICT, number))
                    right += is_right
        self.assertGreater(right, 10)

    def test_orders_of_worlds(self):
        writer = written(example("statistics"), "bank")
        facts = writer.lines[2].removeprefix("open ").replace(") ", ")\n").split("\n")
        self.assertEqual(len(facts), len(writer.blocks[3].world))
        for world in (facts[::-1], facts + facts[-1:], ["-", *facts], [*facts, ""], [""], [*facts, "made_loss(elm)"],
                      ["made_loss(alder,birch)"], ["made_loss()"], ["x(alder)"], ["made_loss( alder)"], ["alder"],
                      ["in_region(alder)"], ["in_region(alder, mill)"], [facts[0].replace(", ", ",")]):
            with self.subTest(world):
                changed = replaced(writer, 2, "open " + " ".join(world))
                self.assertEqual(refusal(example("statistics"), "bank", changed), (dossiers.FORM, 3))

    def test_numbers_of_chains_and_literals(self):
        draw, right, wrong = random.Random(5), 0, 0
        for files, name, writer in all_written():
            for number, block in writer.blocks.items():
                for place, (clause, chain) in enumerate(block.machine.lines if block.follows else ()):
                    at = draw.randrange(len(chain))
                    other = [*chain[:at], max(chain[at] + draw.choice((-3, -1, 1, 3)), 0), *chain[at + 1:]]
                    for line in ((clause, other), (clause, chain[:at] + chain[at + 1:]), (clause[1:], chain),
                                 (clause + [(0, False)], chain), (clause[::-1], chain)):
                        lines = [*block.machine.lines[:place], line, *block.machine.lines[place + 1:]]
                        found = refusal(files, name, replaced(writer, number + place, writer.refuted([line])[1]))
                        end = (dossiers.VERDICT, number + len(lines) + 1)
                        self.check_line(found, is_right(block.form.clauses, lines), line, end)
                        right, wrong = right + (found is None), wrong + (found is not None)
        self.assertGreater(min(right, wrong), 50)

    def check_line(self, found, is_one, line, end):
        """A line of a refutation is refused exactly where it isn't right; without a chain by its form."""
        if line[1]:
            self.assertEqual(found, None if is_one else end, line)
        else:
            self.assertEqual(found[0], dossiers.FORM, line)

    def test_each_line_of_the_first_mark(self):
        for at, line in enumerate(FIRST.splitlines()):
            lines = FIRST.splitlines()
            self.assertIsNotNone(refusal(example("ward"), "nurse", joined(lines[:at] + lines[at + 1:])), line)
            twice = refusal(example("ward"), "nurse", joined(lines[:at] + [line] + lines[at:]))
            self.assertEqual(twice is None, line.startswith("line"), line)
            if at + 1 < len(lines):
                swapped = lines[:at] + lines[at:at + 2][::-1] + lines[at + 2:]
                self.assertIsNotNone(refusal(example("ward"), "nurse", joined(swapped)), line)

    def test_lines_left_out_twice_and_swapped(self):
        draw = random.Random(6)
        for files, name, writer in all_written():
            lines = writer.text().splitlines()
            for at in sorted(draw.sample(range(len(lines)), min(len(lines), 25))):
                self.assertIsNotNone(refusal(files, name, joined(lines[:at] + lines[at + 1:])), lines[at])
                self.check_change(files, name, writer, lines[:at] + [lines[at]] + lines[at:], lines[at])
                self.check_change(files, name, writer, lines[:at] + lines[at:at + 2][::-1] + lines[at + 2:], lines[at])

    def check_change(self, files, name, writer, lines, line):
        """A dossier in which a line stands twice, or changed places with the next one, is refused.

        But the last line of a refutation may stand twice, and two worlds change places, where each is still right.
        """
        text = joined(lines)
        if text == writer.text() or refusal(files, name, text) is not None:
            return
        self.assertRegex(line, r"^(line :|open ) ")
        for pair in pairs_of(files, name, text):
            lrat_checker.check(*files_of(pair))

    def test_an_item_left_out(self):
        """Without it the marks behind it are those of another log: accepted is what the rule gives then."""
        files, accepted, refused = example("ward"), 0, 0
        for name in users(files):
            writer = written(files, name)
            heads = [number for number, line in enumerate(writer.lines) if line.startswith("ask ")]
            ends = [*heads[1:], len(writer.lines)]
            for begin, end in zip(heads, ends):
                lines = writer.lines[1:begin] + writer.lines[end:]
                text = joined([writer.text().splitlines()[0], *lines, f"done {writer.items - 1}"])
                again = Writer(files.policy, files.facts, name)
                asked = [line.split(" ", 2)[1:] for line in lines if line.startswith("ask ")]
                if refusal(files, name, text) is None:
                    self.assertEqual([again.ask(text) for _, text in asked], [mark for mark, _ in asked])
                    accepted += 1
                else:
                    refused += 1
        self.assertGreater(min(accepted, refused), 2)


if __name__ == "__main__":
    unittest.main()
