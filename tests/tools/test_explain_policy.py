"""The explanations of each refusal of a policy: the place, what is there, and what to do."""

import program
from told import POLICY, InDirectory, as_bytes, changed

SIX = "forall a: five . forall b: five . forall c: five . forall d: five . forall e: five . forall f: five . z()"
FIVE = changed(('ward = ["w1"]', 'ward = ["w1"]\nfive = ["c1", "c2", "c3", "c4", "c5"]'),
               ('hiv = ["person"]', 'hiv = ["person"]\nz = []'))
SECOND = '[[users]]\nname = "eve"\nmethod = "lying"\nsecrets = ["false"]\n'


def know(text):
    """The policy with another sentence known."""
    return changed(("hiv(ann) -> hiv(bob)", text))


# A policy, what the program says of it, the place that is meant (line, column, piece), and what the explanation names.
# Lines and columns are counted by hand: in line 11 a sentence begins at column 10.
CASES = {
    "a string without quotes": (changed(('"lying"', "lying")), "policy 1", (10, 10, "l"),
                                ["TOML", "line 10, column 10", "quotes"]),
    "an array that isn't closed": (changed(('"hiv(ann)"]', '"hiv(ann)"')), "policy 1", None, ["TOML", "array"]),
    "typographic quotes": (changed(('"lying"', "“lying”")), "policy 1", (10, 10, "“"), ["straight quotes"]),
    "a colon for =": (changed(('method =', "method:")), "policy 1", None, ["=", "colon"]),
    "a key twice": (changed(('method = "lying"', 'method = "lying"\nmethod = "lying"')), "policy 1", None,
                    ["line 11", "twice"]),
    "Latin-1": (as_bytes(POLICY).replace(b'"bob"', b'"b\xf6b"'), "policy 1", (3, 20, "\ufffd"), ["UTF-8", "iconv"]),
    "no version": (changed(("version = 1\n", "")), "policy 2 version", None, ["version", "isn't there"]),
    "the version below a table": (
        changed(("version = 1\n", ""), ("[[users]]", "version = 1\n[[users]]")), "policy 2 version", (7, 1, "version"),
        ["'relations'", "above the first line in brackets"]),
    "no method": (changed(('method = "lying"\n', "")), "policy 2 users[0].method", (8, 1, "[[users]]"),
                  ["method", "'eve'", "refusal"]),
    "no secrets": (changed(('secrets = ["hiv(ann)"]\n', "")), "policy 2 users[0].secrets", (8, 1, "[[users]]"),
                   ["secrets"]),
    "a version in quotes": (changed(("= 1\n", '= "1"\n')), "policy 3 version", (1, 11, '"1"'),
                            ["string", "without quotes"]),
    "a constant that is a number": (changed(('"bob"', "7")), "policy 3 domains", (3, 18, "7"), ["integer", "domains"]),
    "one user without an array": (changed(("[[users]]", "[users]")), "policy 3 users", (8, 1, "[users]"),
                                  ["[[users]]", "two brackets"]),
    "a name with a blank": (changed(('"eve"', '"eve x"')), "policy 3 users[0].name", (9, 8, '"eve x"'),
                            ["'eve x'", "blank"]),
    "a name with an umlaut": (changed(('"eve"', '"jörg"')), "policy 3 users[0].name", (9, 8, '"jörg"'), ["ö", "ASCII"]),
    "a method in capitals": (changed(('"lying"', '"Lying"')), "policy 3 users[0].method", (10, 10, '"Lying"'),
                             ["write \"lying\""]),
    "what is known as a string": (changed(('["hiv(ann) -> hiv(bob)"]', '"true"')), "policy 3 users[0].know",
                                  (11, 8, '"true"'), ["brackets"]),
    "a budget in quotes": (changed(('"lying"', '"lying"\nbudget = "5"')), "policy 3 users[0].budget", (11, 10, '"5"'),
                           ["without quotes"]),
    "a pass phrase for a token": (
        changed(('"lying"', '"lying"\ntoken = "night shift"')), "policy 3 users[0].token", (11, 9, '"night shift"'),
        ["sha256sum", "64"]),
    "an unknown key": (changed(("secrets", "secret")), "policy 4 users[0].secret", (12, 1, "secret"),
                       ["'secret'", "'secrets'", "'eve'"]),
    "an unknown key at the root": (changed(("version = 1", "version = 1\nuser = 1")), "policy 4 user", (2, 1, "user"),
                                   ["'users'"]),
    "a name twice": (changed(('"w1"', '"ann"')), "policy 5 1", (4, 9, '"ann"'), ["'ann'", "twice", ":3:11"]),
    "an unknown domain": (changed(('["person", "ward"]', '["person", "wards"]')), "policy 5 2", (7, 19, '"wards"'),
                          ["'wards'", "'ward'", "column 2"]),
    "seven columns": (changed(('["person", "ward"]', str(["person"] * 7).replace("'", '"'))), "policy 5 3",
                      (7, 1, "lies"), ["7 columns", "6"]),
    "a domain without constants": (changed(('["w1"]', "[]")), "policy 5 4", (4, 1, "ward"), ["'ward'", "no constant"]),
    "a keyword as a constant": (changed(('"w1"', '"or"')), "policy 5 5", (4, 9, '"or"'), ["'or'", "keyword"]),
    "a variable of printed sentences": (changed(('"w1"', '"v1"')), "policy 5 5", (4, 9, '"v1"'), ["'v1'", "v1 to v8"]),
    "a long name": (changed(('"w1"', '"' + "w" * 33 + '"')), "policy 5 5", (4, 9, '"' + "w" * 33 + '"'),
                    ["33 bytes", "32"]),
    "an ampersand": (know("hiv(ann) & hiv(bob)"), "policy 6 users[0].know[0] 1 9", (11, 19, "&"),
                     ["'&'", "'and'", "know[0]", "'eve'"]),
    "a quote": (know("hiv('ann')"), "policy 6 users[0].know[0] 1 4", (11, 14, "'"), ["without quotes"]),
    "an umlaut in a sentence": (know("hiv(jörg)"), "policy 6 users[0].know[0] 3 4", (11, 14, "j"), ["'j'", "'ö'", "ae for ä"]),
    "an escape before the place": (
        know("hiv(ann) and \\u0068iv(carl)"), "policy 6 users[0].know[0] 3 17", (11, 32, "carl"), ["'carl'"]),
    "AND": (know("hiv(ann) AND hiv(bob)"), "policy 6 users[0].know[0] 2 9", (11, 19, "AND"),
            ["'AND'", "'and'", "small letters"]),
    "two equals signs": (know("ann == bob"), "policy 6 users[0].know[0] 2 5", (11, 15, "="), ["write '='"]),
    "a missing dot": (know("forall x: person hiv(x)"), "policy 6 users[0].know[0] 2 17", (11, 27, "hiv"),
                      ["dot", "'hiv'"]),
    "an unknown relation": (know("hivv(ann)"), "policy 6 users[0].know[0] 3 0", (11, 10, "hivv"), ["'hivv'", "hiv"]),
    "another domain": (know("hiv(w1)"), "policy 6 users[0].know[0] 4 4", (11, 14, "w1"),
                       ["'w1'", "'ward'", "'person'"]),
    "nine quantifiers": (
        know("forall x: ward . " * 9 + "true"), "policy 6 users[0].know[0] 5 136", (11, 146, "forall"),
        ["ninth", "eight"]),
    "a column too many": (know("hiv(ann, bob)"), "policy 6 users[0].know[0] 6 7", (11, 17, ","), ["'hiv'", "1 column"]),
    "a secret that is no sentence": (changed(('"hiv(ann)"]', '"hiv(bob)", "hiv"]')), "policy 6 users[0].secrets[1] 3 0",
                                     (12, 25, "hiv"),
                                     ["secrets[1]", "parentheses"]),
    "no users": ("version = 1\nusers = []\n[domains]\nd = [\"a\"]\n[relations]\n", "policy 7 users", (2, 9, "[]"),
                 ["1 to 256", "0"]),
    "257 known": (changed(('"hiv(ann) -> hiv(bob)"', ", ".join(['"true"'] * 257))), "policy 7 users[0].know", None,
                  ["257", "256"]),
    "no secret": (changed(('["hiv(ann)"]', "[]")), "policy 7 users[0].secrets", (12, 11, "[]"), ["0 sentences", "16"]),
    "17 secrets": (changed(('["hiv(ann)"]', "[" + ", ".join(['"true"'] * 17) + "]")), "policy 7 users[0].secrets", None,
                   ["17", "16"]),
    "no budget": (changed(('"lying"', '"lying"\nbudget = 0')), "policy 7 users[0].budget", (11, 10, "0"),
                  ["4,000,000", "0"]),
    "a long text": (know("true" + " " * 4093), "policy 7 users[0].know[0]", None, ["4,097 bytes", "4,096"]),
    # Seven quantifiers over five constants: 5^7 instances and (5^7 - 1) / 4 inner nodes.
    "a large sentence": (FIVE.replace("hiv(ann) -> hiv(bob)", "exists g: five . " + SIX), "policy 7 users[0].know[0]",
                         None,
                         ["97,656", "20,000", "know[0]"]),
    # Six quantifiers over five constants have 19,531 nodes; three sentences 58,593, and the secret hiv(ann) 2.
    "a large view": (FIVE.replace('"hiv(ann) -> hiv(bob)"', ", ".join([f'"{SIX}"'] * 3)), "policy 7 users[0].secrets",
                     (14, 11, '["hiv(ann)"]'),
                     ["58,595", "40,000"]),
    "a name of two users": (POLICY + SECOND, "policy 8 users[1].name", (14, 8, '"eve"'), ["'eve'", "users[0]", ":9:8"]),
    "version 3": (changed(("= 1\n", "= 3\n")), "policy 9", (1, 11, "3"), ["1 or 2", "3", "write version = 1"]),
    "secrecies in version 1": (POLICY + 'secrecies = ["hiv(bob)"]\n', "policy 4 users[0].secrecies",
                               (13, 1, "secrecies"), ["version = 2", "'eve'"]),
    "a secrecy in version 1": (POLICY + 'secrecy = ["hiv(bob)"]\n', "policy 4 users[0].secrecy", (13, 1, "secrecy"),
                               ["'secrecies'", "version = 2"]),
}


def of_2(secrecies, secrets=None):
    """A policy of version 2, whose user has these secrecies in line 12 and these secrets in the next one."""
    lines = f"secrecies = {secrecies}\n" + (f"secrets = {secrets}\n" if secrets is not None else "")
    return changed(("version = 1", "version = 2"), ('secrets = ["hiv(ann)"]\n', lines))


def listed(count):
    return "[" + ", ".join(['"true"'] * count) + "]"


def constants(letter, count):
    return f"{letter} = {str([f'{letter}{number}' for number in range(count)])}".replace("'", '"')


# 18 times 370 instances of three nodes, and an inner node for each of 18 and the outermost: 19,999. Its `not` is one
# more.
LARGE = "forall x: one . forall y: two . true or true"
LARGE_OF_2 = {text: of_2(f'["{text}"]').replace('ward = ["w1"]', 'ward = ["w1"]\n' + constants("one", 18) + "\n"
                                               + constants("two", 370)) for text in (LARGE, f"not ({LARGE})")}

# As CASES, of policies of version 2: in line 12 the first secrecy begins at column 14, the second one at 26.
CASES_OF_2 = {
    "another key": (changed(("version = 1", "version = 2"), ("secrets", "secrecy")), "policy 4 users[0].secrecy",
                    (12, 1, "secrecy"), ["write 'secrecies' for it"]),
    "secrecies as a string": (of_2('"hiv(ann)"'), "policy 3 users[0].secrecies", (12, 13, '"hiv(ann)"'), ["brackets"]),
    "a secrecy that is a number": (of_2('["hiv(ann)", 7]'), "policy 3 users[0].secrecies", (12, 26, "7"), ["integer"]),
    "a secrecy that is no sentence": (of_2('["hiv(ann)", "hiv(carl)"]'), "policy 6 users[0].secrecies[1] 3 4",
                                      (12, 31, "carl"), ["secrecies[1]", "'carl'"]),
    "secrets that are a number": (of_2('["hiv(ann)"]', "7"), "policy 3 users[0].secrets", (13, 11, "7"),
                                  ["integer", "1 to 16", "in version 2 also of none"]),
    "nine secrecies": (of_2(listed(9)), "policy 7 users[0].secrecies", None, ["9 sentences", "at most 8", "joined"]),
    "17 secrets": (of_2("[]", listed(17)), "policy 7 users[0].secrets", None, ["17 sentences", "at most 16", "'or'"]),
    "15 secrets and a secrecy": (of_2('["hiv(ann)"]', listed(15)), "policy 7 users[0].secrecies",
                                 (12, 13, '["hiv(ann)"]'), ["15 secrets and 1 secrecy", "17", "1 to 16", "negation"]),
    "7 secrecies and 3 secrets": (of_2(listed(7), listed(3)), "policy 7 users[0].secrecies", None,
                                  ["3 secrets and 7 secrecies", "17"]),
    "empty lists": (of_2("[]", "[]"), "policy 7 users[0].secrecies", (12, 13, "[]"), ["neither", "1 to 16"]),
    "no list": (changed(("version = 1", "version = 2"), ('secrets = ["hiv(ann)"]\n', "")),
                "policy 7 users[0].secrecies", (8, 1, "[[users]]"), ["neither", "'eve'"]),
    "a long secrecy": (of_2(f'["true{" " * 4093}"]'), "policy 7 users[0].secrecies[0]", None, ["4,097 bytes", "4,096"]),
    "a secrecy without room for its negation": (LARGE_OF_2[f"not ({LARGE})"], "policy 7 users[0].secrecies[0]", None,
                                                ["20,000 nodes", "19,999", "negation"]),
    # The secrecy's `not` and that of its negation have 20,000 and 20,001 nodes, and what she knows has 3.
    "a secrecy that makes a large view": (LARGE_OF_2[LARGE], "policy 7 users[0].secrets", (10, 1, "[[users]]"),
                                          ["40,004", "40,000", "twice"]),
}


class Policies(InDirectory):
    def test_each_refusal_is_explained(self):
        for name, (policy, said, place, words) in [*CASES.items(), *CASES_OF_2.items()]:
            with self.subTest(name):
                finding = self.explained_once("cqe: " + said, policy=policy)
                self.assertSays(finding, *words)
                if place and name != "Latin-1":
                    self.assertPoints(finding, *place)
                elif place:
                    self.assertEqual((finding.spot.line, finding.spot.column), place[:2])

    def test_each_kind_has_a_case(self):
        self.assertEqual({case[1].split()[1] for case in CASES.values()}, set("123456789"))

    def test_a_program_that_is_older_than_version_2(self):
        finding = self.explained_once("cqe: policy 9", policy=of_2('["hiv(ann)"]'))
        self.assertSays(finding, "older", "newer program", "version = 1")
        self.assertPoints(finding, 1, 11, "2")

    def test_secrecies_of_a_file_that_is_not_there(self):
        self.assertSays(self.explained_once("cqe: policy 4 users[0].secrecies"), "'secrecies'", "version = 2")
        self.assertSays(self.explained_once("cqe: policy 7 users[0].secrecies"), "8", "1 to 16", "neither")
        self.assertSays(self.explained_once("cqe: policy 7 users[0].secrecies[3]"), "secrecies[3]", "19,999")

    def test_without_the_file_each_kind_has_a_sentence(self):
        for _, said, _, _ in [*CASES.values(), *CASES_OF_2.values()]:
            with self.subTest(said):
                finding = self.explained_once("cqe: " + said)
                self.assertIsNone(finding.spot)
                self.assertGreater(len(finding.meaning), 20)

    def test_places_count_a_byte_order_mark(self):
        finding = self.explained_once("cqe: policy 6 users[0].know[0] 3 4",
                                      policy=b"\xef\xbb\xbf" + as_bytes(know("hiv(carl)")))
        self.assertPoints(finding, 11, 14, "carl")

    def test_a_key_with_a_line_feed_is_found(self):
        finding = self.explained_once("cqe: policy 4 users[0].a", policy=POLICY + '"a\\nb" = 1\n')
        self.assertPoints(finding, 13, 1, '"a\\nb"')

    @program.needed
    def test_the_program_says_so(self):
        self.assertSaid(CASES)

    @program.with_secrecies
    def test_the_program_says_so_of_version_2(self):
        self.assertSaid(CASES_OF_2)

    def assertSaid(self, cases):
        """That the program refuses each policy of these cases so."""
        facts = self.file("facts", "")
        (self.directory / "journals").mkdir()
        for name, (policy, said, _, _) in cases.items():
            with self.subTest(name):
                ran = program.run("init", "--policy", self.file("policy", policy), "--facts", facts, "--journals",
                                  self.directory / "journals")
                self.assertEqual((ran.returncode, ran.stderr), (3, f"cqe: {said}\n".encode()))
