"""The explanations of each refusal of a facts file and of a script."""

import program
from told import FACTS, POLICY, InDirectory, as_bytes

# A line of facts behind the comment in line 1, the place (column and piece), and what the explanation names.
NO_FACTS = {
    "hiv,ann": (4, ",", ["CSV", "hiv(..)"]),
    "ann;hiv": (1, "ann", ["CSV"]),
    "hiv(\"ann\")": (5, '"', ["without quotes"]),
    "hiv(ann).": (9, ".", ["leave it out"]),
    "hiv(ann) # ill": (10, "# ill", ["comment", "line of its own"]),
    "// hiv(ann)": (1, "/", ["comment begins with #"]),
    "hiv(Ann)": (5, "Ann", ["'Ann'", "'ann'", "case"]),
    "hivv(ann)": (1, "hivv", ["'hivv'", "'hiv'"]),
    "hiv(w1)": (5, "w1", ["'w1'", "'ward'", "'person'"]),
    "lies(bob)": (9, ")", ["'lies'", "2 columns"]),
    "hiv(ann, bob)": (8, ",", ["'hiv'", "1 column"]),
    "hiv(ann": (8, "", ["')'"]),
    "hiv(jörg)": (5, "j", ["'j'", "'ö'"]),
    "hiv(ann) hiv(bob)": (10, "hiv(bob)", ["one fact in each line"]),
    "fact hiv(ann)": (1, "fact", ["scripts of case"]),
    "not hiv(ann)": (1, "not", ["not", "relation"]),
    "\ufeffhiv(ann)": (1, "\ufeff", ["byte order mark"]),
    "hiv ann": (5, "ann", ["parenthes"]),
    "hiv(ann)" + " " * 4089: (1, "h", ["4,097 bytes", "4,096"]),
}

HEAD = """domain person = ann, bob
relation hiv(person)
relation z()
method lying
secret hiv(ann)
"""
SIX = HEAD.replace("= ann, bob", "= a, b, c, d, e, ann")

# A script, what the program says, the place (line, column, piece), and what the explanation names.
SCRIPTS = {
    "another word": (HEAD + "query hiv(ann)\n", "1 6", (6, 1, "query"), ["'query'", "'ask'"]),
    "a word in capitals": (HEAD + "Ask hiv(ann)\n", "1 6", (6, 1, "Ask"), ["'ask'"]),
    "a blank before": (HEAD + " ask hiv(ann)\n", "1 6", (6, 1, " "), ["blank"]),
    "a comment behind a blank": (HEAD + " # mine\n", "1 6", (6, 1, " "), ["first column"]),
    "an umlaut": (HEAD + "ask hiv(jörg)\n", "1 6", (6, 10, "ö"), ["U+00F6", "ASCII"]),
    "a byte order mark": ("\ufeff" + HEAD, "1 1", (1, 1, "\ufeff"), ["byte order mark"]),
    "a method that is none": (HEAD.replace("lying", "lie"), "1 4", (4, 8, "lie"), ["'lie'", "lying", "refusal"]),
    "a budget in words": (HEAD + "budget ten\n", "1 6", (6, 8, "ten"), ["'ten'", "digits"]),
    "nothing known": (HEAD + "know\n", "1 6", (6, 1, "know"), ["'know'"]),
    "a relation without parentheses": ("relation hiv\n", "1 1", (1, 10, "hiv"), ["relation hiv(person)"]),
    "a line of batch": (HEAD + "eve 1 ask hiv(ann)\n", "1 6", (6, 1, "eve 1 ask hiv(ann)"), ["batch"]),
    "a long line": (HEAD + "ask " + "x" * 4093 + "\n", "2 6", (6, 1, "a"), ["4,097 bytes", "4,096"]),
    "many lines": ("\n" * 100_000 + "x", "3 100001", None, ["100,000"]),
    "a domain that stands below": ("relation hiv(person)\ndomain person = ann\n", "4 1", (1, 14, "person"),
                                   ["'person'", "above"]),
    "a domain without constants": ("domain person =\n", "4 1", (1, 8, "person"), ["'person'", "no constant"]),
    "a constant twice": ("domain person = ann, bob, ann\n", "4 1", None, ["'ann'", "twice"]),
    "a keyword": ("domain person = ann, not\n", "4 1", (1, 22, "not"), ["'not'", "keyword"]),
    "a fact that is none": (HEAD + "fact hiv(carl)\n", "5 6", (6, 10, "carl"), ["'carl'"]),
    "a secret that is none": (HEAD + "secret hiv(ann) AND hiv(bob)\n", "6 6", (6, 17, "AND"), ["'secret'", "'and'"]),
    "a known text that is empty": (HEAD + "know \n", "6 6", (6, 6, ""), ["empty"]),
    "a budget of nothing": (HEAD + "budget 0\n", "7 6", (6, 8, "0"), ["4,000,000"]),
    "17 secrets": (HEAD + "secret z()\n" * 16, "7 21", (21, 1, "secret z()"), ["17th", "16"]),
    # Six quantifiers over six constants: 6^6 instances and (6^6 - 1) / 5 inner nodes.
    "a large sentence": (SIX + "know " + "forall x: person . " * 6 + "z()\n", "7 6", None, ["55,987", "20,000"]),
    "an ask before a secret": ("domain d = a\nmethod lying\nask true\n", "8 3", (3, 1, "ask"), ["no 'secret'"]),
    "an ask before a method": ("domain d = a\nsecret true\nask true\n", "8 3", (3, 1, "ask"), ["no 'method'"]),
    "a second method": (HEAD + "method refusal\n", "8 6", (6, 1, "method"), ["second 'method'", "line 4"]),
    "a fact behind an ask": (HEAD + "ask true\nfact hiv(ann)\n", "8 7", (7, 1, "fact"), ["'fact'", "line 6"]),
}

# 19,999 nodes, with its `not` 20,000: test_explain_policy counts them.
LARGE = "forall x: one . forall y: two . true or true"
LARGE_HEAD = (f"domain one = {', '.join(f'a{number}' for number in range(18))}\n"
              f"domain two = {', '.join(f'b{number}' for number in range(370))}\n" + HEAD)
SECRECIES = {
    "a secrecy of nothing": (HEAD + "secrecy\n", "1 6", (6, 1, "secrecy"), ["secrecy hiv(ann)"]),
    "secrecies": (HEAD + "secrecies hiv(ann)\n", "1 6", (6, 1, "secrecies"), ["write 'secrecy'"]),
    "a secrecy that is none": (HEAD + "secrecy hiv(ann) AND hiv(bob)\n", "6 6", (6, 18, "AND"),
                               ["'secrecy'", "'and'"]),
    # With the secret of the head seven secrecies make 15 secrets, and eight make 17.
    "eight secrecies and a secret": (HEAD + "secrecy z()\n" * 8, "7 13", (13, 1, "secrecy z()"),
                                     ["17 secrets", "two", "16"]),
    "seven secrecies and three secrets": (HEAD + "secrecy z()\n" * 7 + "secret z()\n" * 2, "7 14",
                                          (14, 1, "secret z()"), ["17 secrets", "two", "16"]),
    "a secrecy without room for its negation": (LARGE_HEAD + f"secrecy not ({LARGE})\n", "7 8", None,
                                                ["20,000", "19,999"]),
    # The secret's `not` has 2 nodes, the secrecy's 20,000, that of its negation 20,001.
    "a secrecy that makes a large view": (LARGE_HEAD + f"secrecy {LARGE}\n", "7 8", None, ["40,003", "40,000"]),
    "an ask behind a secrecy alone": ("domain d = a\nsecrecy true\nask true\n", "8 3", (3, 1, "ask"),
                                      ["there is no 'method' above"]),
    "a secrecy behind an ask": (HEAD + "ask true\nsecrecy z()\n", "8 7", (7, 1, "secrecy"),
                                ["'secrecy'", "line 6"]),
}

BATCHES = {
    "no session": ("eve ask hiv(ann)\n", "1 1", (1, 5, "ask"), ["session", "1 to 64"]),
    "session 65": ("# mine\neve 65 ask hiv(ann)\n", "1 2", (2, 5, "65"), ["1 to 64"]),
    "session 01": ("eve 01 ask true\n", "1 1", (1, 5, "01"), ["leading zeros"]),
    "no ask": ("eve 1 hiv(ann)\n", "1 1", (1, 7, "hiv(ann)"), ["'ask'"]),
    "an operator asks": ("eve op ask true\n", "1 1", (1, 8, "ask"), ["'protect'"]),
    "a session adds": ("eve 1 protect true\n", "1 1", (1, 7, "protect"), ["'ask'"]),
    "nothing to protect": ("eve op protect\n", "1 1", (1, 8, "protect"), ["nothing behind", "one blank"]),
    "a restart without a star": ("restart\n", "1 1", (1, 1, "restart"), ["* restart"]),
    "a restart in capitals": ("eve 1 ask true\n* Restart\n", "1 2", (2, 1, "* Restart"), ["* restart"]),
    "a line of case": ("domain d = a\n", "1 1", (1, 1, "domain"), ["case"]),
    "an umlaut": ("jörg 1 ask true\n", "1 1", (1, 2, "ö"), ["ASCII"]),
    "a long line": ("eve 1 ask " + "x" * 4087 + "\n", "2 1", (1, 1, "e"), ["4,097"]),
    "many lines": ("\n" * 100_000 + "x", "3 100001", None, ["100,000"]),
}


class Facts(InDirectory):
    def test_each_line_is_explained(self):
        for line, (column, piece, words) in NO_FACTS.items():
            with self.subTest(line[:40]):
                finding = self.explained_once("cqe: facts 1 2", policy=POLICY, facts=f"# mine\n{line}\nhiv(ann)\n")
                self.assertSays(finding, "line 2", *words)
                if line.isascii() and piece:
                    self.assertPoints(finding, 2, column, piece)
                else:
                    self.assertEqual((finding.spot.line, finding.spot.column), (2, column))

    def test_bytes_that_are_no_text(self):
        finding = self.explained_once("cqe: facts 3 0", policy=POLICY, facts=b"hiv(ann)\nhiv(j\xf6rg)\n")
        self.assertEqual((finding.spot.line, finding.spot.column), (2, 6))
        self.assertSays(finding, "UTF-8", "0xF6")

    def test_too_many(self):
        finding = self.explained_once("cqe: facts 2 3", policy=POLICY, facts="hiv(ann)\n# mine\nhiv(bob)\n")
        self.assertSays(finding, "100,000", "line 3")
        self.assertEqual(finding.spot.line, 3)

    def test_without_the_policy(self):
        self.assertSays(self.explained_once("cqe: facts 1 1", facts="hiv ann\n"), "--policy")
        self.assertSays(self.explained_once("cqe: facts 1 1"), "hiv(ann)")

    @program.needed
    def test_the_program_says_so(self):
        policy = self.file("policy", POLICY)
        (self.directory / "journals").mkdir()
        for line in [*NO_FACTS, b"hiv(j\xf6rg)"]:
            with self.subTest(line[:40]):
                facts = self.file("facts", b"# mine\n" + as_bytes(line) + b"\nhiv(ann)\n")
                ran = program.run("init", "--policy", policy, "--facts", facts, "--journals",
                                  self.directory / "journals")
                said = "facts 3 0" if isinstance(line, bytes) else "facts 1 2"
                self.assertEqual((ran.returncode, ran.stderr), (4, f"cqe: {said}\n".encode()))


class Scripts(InDirectory):
    def check(self, cases, sort):
        for name, (script, said, place, words) in cases.items():
            with self.subTest(name):
                finding = self.explained_once("cqe: script " + said, script=script, sort=sort)
                self.assertSays(finding, f"line {said.split()[1]}", *words)
                if place and place[2].isascii():
                    self.assertPoints(finding, *place) if place[2] else self.assertEqual((finding.spot.line,
                        finding.spot.column), place[:2])
                elif place:
                    self.assertEqual((finding.spot.line, finding.spot.column), place[:2])

    def test_each_line_of_case_is_explained(self):
        self.check({**SCRIPTS, **SECRECIES}, "case")
        self.assertEqual({case[1].split()[0] for case in SCRIPTS.values()}, set("12345678"))

    def test_each_line_of_batch_is_explained(self):
        self.check(BATCHES, "batch")
        self.assertEqual({case[1].split()[0] for case in BATCHES.values()}, set("123"))

    def test_a_program_that_is_older_than_secrecies(self):
        finding = self.explained_once("cqe: script 1 6", script=HEAD + "secrecy z()\n")
        self.assertSays(finding, "line 6", "older", "newer program")
        self.assertPoints(finding, 6, 1, "secrecy")

    def test_without_the_script_each_kind_has_a_sentence(self):
        meanings = {self.explained_once(f"cqe: script {kind} 3").meaning for kind in range(1, 9)}
        self.assertEqual(len(meanings), 8)

    @program.needed
    def test_the_program_says_so(self):
        policy, facts, journals = self.file("policy", POLICY), self.file("facts", FACTS), self.directory / "journals"
        journals.mkdir()
        files = ("--policy", policy, "--facts", facts, "--journals", journals)
        self.assertEqual(program.run("init", *files).returncode, 0)
        self.assertSaid(SCRIPTS, "case")
        self.assertSaid(BATCHES, "batch", *files)

    @program.with_secrecies
    def test_the_program_says_so_of_secrecies(self):
        self.assertSaid(SECRECIES, "case")

    def assertSaid(self, cases, *words):
        """That the program refuses each script of these cases so."""
        for name, (script, said, _, _) in cases.items():
            with self.subTest(name):
                ran = program.run(*words, given=as_bytes(script))
                self.assertEqual((ran.returncode, ran.stdout, ran.stderr),
                                 (5, b"", f"cqe: script {said}\n".encode()))
