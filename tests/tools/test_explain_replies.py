"""The explanations of replies with a number, and of each common slip in a question."""

import program
from told import FACTS, POLICY, Context, Explainer, InDirectory, as_bytes, changed, printed

HEAD = """domain person = ann, bob
domain ward = w1
relation hiv(person)
relation lies(person, ward)
relation z()
method lying
secret false
"""

# A question, the kind and place of its refusal, the piece that is meant, and what the explanation names.
SLIPS = [
    ("hiv(ann) & hiv(bob)", 1, 9, "&", ["'and'"]),
    ("hiv(ann) && hiv(bob)", 1, 9, "&", ["&&", "'and'"]),
    ("hiv(ann) || hiv(bob)", 1, 9, "|", ["||", "'or'"]),
    ("hiv(ann) | hiv(bob)", 1, 9, "|", ["'or'"]),
    ("!hiv(ann)", 1, 0, "!", ["'not'"]),
    ("~hiv(ann)", 1, 0, "~", ["'not'"]),
    ("hiv('ann')", 1, 4, "'", ["quotes"]),
    ('hiv("ann")', 1, 4, '"', ["quotes"]),
    ("hiv(1)", 1, 4, "1", ["letter", "p1"]),
    ("hiv(ann) <> z()", 1, 9, "<", ["'!='"]),
    ("ann > bob", 1, 4, ">", ["no order"]),
    ("ann => bob", 1, 5, ">", ["'->'"]),
    ("hiv(ann);", 1, 8, ";", ["nothing ends"]),
    ("hiv(ann) AND hiv(bob)", 2, 9, "AND", ["'and'", "small letters"]),
    ("hiv(ann) Or hiv(bob)", 2, 9, "Or", ["'or'", "small letters"]),
    ("hiv(ann) implies z()", 2, 9, "implies", ["'->'"]),
    ("ann == bob", 2, 5, "=", ["=="]),
    ("hiv(ann) = hiv(bob)", 2, 9, "=", ["'<->'"]),
    ("hiv(ann) => z()", 2, 9, "=", ["'->'"]),
    ("forall x: person hiv(x)", 2, 17, "hiv", ["dot"]),
    ("forall x . hiv(x)", 2, 9, ".", ["domain"]),
    ("forall x, y: person . hiv(x)", 2, 8, ",", ["quantifier of its own"]),
    ("hiv(ann).", 2, 8, ".", ["dot"]),
    ("(hiv(ann) and z()", 2, 17, "", ["parenthesis", "end"]),
    ("hiv(ann))", 2, 8, ")", ["closes none"]),
    ("", 2, 0, "", ["empty"]),
    ("z() <-> z() <-> z()", 2, 12, "<->", ["doesn't chain"]),
    ("NOT hiv(ann)", 3, 0, "NOT", ["'not'", "small letters"]),
    ("hiv(Ann)", 3, 4, "Ann", ["ann", "case"]),
    ("hivv(ann)", 3, 0, "hivv", ["hiv"]),
    ("hiv", 3, 0, "hiv", ["relation", "parentheses"]),
    ("ann(z)", 3, 0, "ann", ["constant"]),
    ("hiv(x)", 3, 4, "x", ["variable", "quantifier"]),
    ("hiv(person)", 3, 4, "person", ["domain"]),
    ("forall x: persn . z()", 3, 10, "persn", ["domain", "'persn'"]),
    ("SELECT hiv", 3, 0, "SELECT", ["SQL"]),
    ("hiv(w1)", 4, 4, "w1", ["'ward'", "'person'"]),
    ("ann = w1", 4, 6, "w1", ["'ward'", "'person'"]),
    ("not " * 65 + "z()", 5, 256, "not", ["sixty-fifth", "64"]),
    ("forall x: ward . " * 9 + "z()", 5, 136, "forall", ["ninth", "eight"]),
    ("hiv(ann, bob)", 6, 7, ",", ["'hiv'", "1 column"]),
    ("lies(ann)", 6, 8, ")", ["'lies'", "2 columns"]),
    ("z(ann)", 6, 2, "ann", ["'z'", "0 columns"]),
]


class Questions(InDirectory):
    def test_each_slip_is_explained(self):
        for text, kind, place, piece, words in SLIPS:
            with self.subTest(text[:40]):
                said = f"error 20 {kind} {place}"
                finding = self.explained_once(said, script=HEAD + f"ask {text}\n", sort="case")
                self.assertSays(finding, f"byte {place} of the text", *words)
                if piece:
                    self.assertEqual((finding.spot.line, finding.spot.column), (8, place + 5))
                if piece and place < 60:
                    self.assertPoints(finding, 8, place + 5, piece)

    def test_each_kind_has_a_slip(self):
        self.assertEqual({kind for _, kind, _, _, _ in SLIPS}, {1, 2, 3, 4, 5, 6})

    def test_a_question_in_a_batch(self):
        script = "# mine\neve 1 ask true\n* restart\nadam 2 ask hiv(carl)\n"
        said = ["eve 1 yes", "* restarted", "adam 2 error 20 3 4"]
        finding = self.explained_once(*said, policy=POLICY, script=script, sort="batch")
        self.assertPoints(finding, 4, 16, "carl")

    def test_an_operators_line(self):
        script = "eve 1 ask true\neve op protect hiv(carl)\neve op protect hiv(ann)\neve op protect true\n"
        said = ["eve 1 yes", "eve op error 20 3 4", "eve op protected", "eve op unsafe"]
        sentence, unsafe = self.explained(*said, policy=POLICY, script=script, sort="batch")
        self.assertPoints(sentence, 2, 20, "carl")
        self.assertPoints(unsafe, 4, 16, "true")
        self.assertSays(unsafe, "isn't added", "close him")

    def test_a_user_with_sixteen_secrets(self):
        finding = self.explained_once("eve op error 27", policy=POLICY, script="eve op protect true\n", sort="batch")
        self.assertSays(finding, "16 secrets", "join")

    def test_replies_that_are_not_all_there_point_nowhere(self):
        script = HEAD + "ask true\nask hiv(carl)\n"
        finding = self.explained_once("error 20 3 4", script=script, complete=False)
        self.assertIsNone(finding.spot)
        self.assertSays(finding, "UnknownName", "byte 4")

    def test_a_question_in_a_session(self):
        finding = self.explained_once("login eve abc", "welcome", "ask hiv(ann) & z()", "error 20 1 9", policy=POLICY)
        self.assertPoints(finding, 1, 14, "&")

    def test_what_sort_a_script_is_of(self):
        cases = {"domain d = a\nask true\n": "case", "# mine\n\neve 1 ask true\n": "batch",
                 "eve op protect true\n": "batch",
                 "eve ask\n* restart\n": "batch",
                 "login eve abc\nask true\n": "session", "ask true\n": "session", "": "case",
                 "list 1 exists x: d . r(x)\n": "session"}
        for script, sort in cases.items():
            with self.subTest(script):
                self.assertEqual(Context(script=str(self.file("script", script))).sort, sort)

    def test_very_many_explanations_are_cut(self):
        script = "".join(f"eve 1 ask hiv(x{number})\n" for number in range(300))
        explainer = Explainer(Context(script=str(self.file("script", script))), True)
        for _ in range(300):
            explainer.take("eve 1 error 20 3 4")
        lines = printed(explainer.findings())
        self.assertEqual(lines[-1], "100 further explanations are left out.")
        self.assertEqual(sum(line.startswith("eve 1 error 20") for line in lines), 200)

    def test_like_replies_are_told_once(self):
        script = "eve 1 ask hiv(x)\n" * 3
        said = ["eve 1 error 24"] * 3
        self.assertEqual(len(self.explained(*said, policy=POLICY, script=script, sort="batch")), 1)
        explainer = Explainer(Context())
        for line in said:
            explainer.take(line)
        self.assertIn("2 more of this kind", printed(explainer.findings())[-1])
        self.assertEqual(len(self.explained("error 20 3 4", "error 20 3 4", script="ask hiv(x)\nask hiv(y)\n",
                                            sort="session")), 2)

    @program.needed
    def test_the_program_says_so(self):
        script = HEAD + "".join(f"ask {text}\n" for text, *_ in SLIPS)
        ran = program.run("case", given=as_bytes(script))
        self.assertEqual(ran.stdout.decode().splitlines(),
                         [f"error 20 {kind} {place}" for _, kind, place, _, _ in SLIPS])


class Codes(InDirectory):
    CODES = {20: ["sentence"], 21: ["20,000", "60,000"], 22: ["4,096", "1,048,576"], 23: ["no such user"],
             24: ["isn't admitted", "cqe-check"],
             25: ["logged in", "token"], 26: ["login NAME PHRASE"], 27: ["16 secrets"], 28: ["can't be listed"],
             40: ["journal", "disk"], 41: ["journal", "refused"], 50: ["memory"]}

    def test_each_code_has_a_sentence(self):
        for code, words in self.CODES.items():
            with self.subTest(code):
                self.assertSays(self.explained_once(f"error {code}"), *words)
        self.assertEqual(len({self.explained_once(f"error {code}").meaning for code in self.CODES}), len(self.CODES))

    def test_a_user_who_is_not_there(self):
        finding = self.explained_once("Eve 1 error 23", policy=POLICY, script="Eve 1 ask true\n", sort="batch")
        self.assertSays(finding, "'Eve'", "write 'eve'")
        self.assertPoints(finding, 1, 11, "true")

    def test_a_closed_user(self):
        finding = self.explained_once("eve 1 error 24", policy=POLICY, script="eve 1 ask true\n", sort="batch")
        self.assertSays(finding, "'eve'", "entails one of his secrets", "a secrecy", "refusal", "4,000,000")
        self.assertPoints(finding, 9, 8, '"eve"')

    def test_how_large_a_question_is(self):
        six = HEAD.replace("= ann, bob", "= a, b, c, d, e, ann")
        # Six quantifiers over six constants: 6^6 instances and (6^6 - 1) / 5 inner nodes.
        finding = self.explained_once("error 21", script=six + "ask " + "exists x: person . " * 6 + "z()\n",
                                      sort="case")
        self.assertSays(finding, "55,987")

    def test_logins(self):
        token = changed(('"lying"', '"lying"\ntoken = "' + "0" * 64 + '"'))
        cases = [(POLICY, "login eve abc", ["'eve'", "no token"]), (POLICY, "login eva abc", ["'eva'", "no user"]),
                 (token, "login eve abc", ["'eve'", "phrase", "echo"])]
        for policy, line, words in cases:
            with self.subTest(line):
                finding = self.explained_once(line, "error 25", policy=policy)
                self.assertSays(finding, *words)
        self.assertSays(self.explained_once("ask true", "error 25", policy=POLICY), "login NAME PHRASE")

    def test_lines_that_a_session_does_not_know(self):
        finding = self.explained_once("error 26", script="hello\n", sort="session", policy=POLICY)
        self.assertSays(finding, "'hello'")
        self.assertPoints(finding, 1, 1, "hello")
        finding = self.explained_once("error 26", script="Quit\n", sort="session", policy=POLICY)
        self.assertSays(finding, "'Quit'", "small letters")
        finding = self.explained_once("welcome", "error 26", script="login eve abc\nlogin eve abc\n", sort="session",
                                      policy=POLICY)
        self.assertSays(finding, "logged in already")

    def test_sentences_that_cannot_be_listed(self):
        table = [("error 28 1", "exists"), ("error 28 2", "256"), ("error 28 3", "too long")]
        for reply, words in table:
            with self.subTest(reply):
                self.assertSays(self.explained_once("list 1 hiv(ann)", reply, policy=POLICY), "can't be listed", words)
        self.assertSays(self.explained_once("list 5 hiv(ann)", "error 26", policy=POLICY), "list K SENTENCE")

    def test_where_a_sentence_cannot_be_listed(self):
        many = changed(('"ann", "bob"', '"ann", "bob", ' + ", ".join(f'"p{number}"' for number in range(20))))
        table = [
            ("list 1 hiv(ann)", 1, 8, "hiv", "where exists is wanted"),
            ("list 2 exists x: person . forall y: ward . lies(x, y)", 1, 27, "forall", "the second exists"),
            ("list 3 (exists x: person . (exists y: ward . lies(x, y)))", 1, 46, "lies", "the third exists"),
            ("list 1 (exists x: person . hiv(x)) and hiv(ann)", 1, 8, None, "doesn't begin"),
            ("list 2 exists x: person . exists y: person . hiv(x)", 2, 27, "exists y: person .", "22 x 22 = 484"),
            ("list 3 exists x: ward . exists y: person . exists z: person . hiv(y)", 2, 44, "exists z: person .",
             "1 x 22 x 22 = 484"),
            ("list 1 exists x: person . hiv(x)", 3, 26, " hiv(x)", "too long or too deep"),
        ]
        for line, kind, column, piece, words in table:
            for said in ([line, f"error 28 {kind}"], [f"error 28 {kind}"]):
                with self.subTest(said):
                    script = {} if len(said) == 2 else {"script": f"{line}\n", "sort": "session"}
                    finding = self.explained_once(*said, policy=many, **script)
                    self.assertSays(finding, "can't be listed", words)
                    self.assertPoints(finding, 1, column, piece or line.removeprefix("list 1 "))

    def test_a_list_that_is_no_sentence(self):
        line = "list 1 exists x: persn . hiv(x)"
        for said in ([line, "error 20 3 10"], ["error 20 3 10"]):
            finding = self.explained_once(*said, policy=POLICY, script=f"{line}\n", sort="session")
            self.assertPoints(finding, 1, 18, "persn")

    def test_the_lines_of_a_list(self):
        """Each line of a list is taken, and only the last one stands for its reply."""
        script = "login eve abc\nlist 1 exists x: person . hiv(x)\nask hiv(carl)\nquit\n"
        said = ["welcome", "ann no", "bob error 22", "done 2", "error 20 3 4", "bye"]
        full, sentence = self.explained(*said, policy=POLICY, script=script, sort="session")
        self.assertSays(full, "is full")
        self.assertPoints(full, 2, 1, "list 1 exists x: person . hiv(x)")
        self.assertPoints(sentence, 3, 9, "carl")
        talk = ["login eve abc", "welcome", "list 1 exists x: person . hiv(x)", "ann no", "op error 24", "done 2",
                "ask hiv(carl)", "error 20 3 4"]
        closed, sentence = self.explained(*talk, policy=POLICY)
        self.assertSays(closed, "isn't admitted")
        self.assertPoints(sentence, 1, 9, "carl")

    def test_what_is_like_a_line_of_a_list(self):
        """Elsewhere it is another program's, and goes through."""
        for context in (Context(), Context(script=str(self.file("script", "eve 1 ask true\n")))):
            explainer = Explainer(context)
            self.assertFalse(explainer.take("ann no"))
            self.assertTrue(explainer.take("eve 1 no"))

    @program.needed
    def test_the_program_says_so(self):
        closed = POLICY + '[[users]]\nname = "tom"\nmethod = "refusal"\nknow = ["hiv(bob)"]\nsecrets = ["hiv(ann)"]\n'
        names = {"policy": closed, "facts": FACTS}
        words = [part for name, content in names.items() for part in (f"--{name}", self.file(name, content))]
        (self.directory / "journals").mkdir()
        words += ["--journals", self.directory / "journals"]
        self.assertEqual(program.run("init", *words).returncode, 0)
        script = b"Eve 1 ask true\ntom 1 ask true\neve 1 ask true\n"
        self.assertEqual(program.run("batch", *words, given=script).stdout,
                         b"Eve 1 error 23\ntom 1 error 24\neve 1 yes\n")
        (self.directory / "journals/eve.log").write_bytes(b"closed\n")
        ran = program.run("batch", *words, given=b"eve 1 ask true\n")
        self.assertEqual((ran.returncode, ran.stdout, ran.stderr),
                         (10, b"eve 1 error 41\n", b"cqe: journal eve not a journal\n"))
