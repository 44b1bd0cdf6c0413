"""The explanations of statuses, words, journals and surroundings, and the command as a filter and as a wrapper."""

import fcntl
import hashlib
import os
import signal
import socket
import subprocess
import sys

import program
from told import EXPLAIN, FACTS, POLICY, InDirectory, as_bytes, of_status  # makes the tools' modules found, too

from cqe_tools import surroundings

FILES = ["--policy", "p", "--facts", "f", "--journals", "j"]

# Words without a reading, the word that is meant, and what the explanation names.
WORDS = [
    ([], None, ["no words", "case, init"]),
    (["help"], "help", ["no help", "man cqe"]),
    (["btach", *FILES], "btach", ["'btach'", "write batch"]),
    (["case", "clinic.case"], "clinic.case", ["standard input", "< clinic.case"]),
    (["init", "--policy", "p", "--facts", "f"], None, ["--journals", "wanting"]),
    (["init", *FILES, "--policy", "q"], "--policy", ["--policy", "twice"]),
    (["init", "--polic", "p"], "--polic", ["'--polic'", "--policy"]),
    (["init", *FILES, "--workers", "3"], "--workers", ["'--workers'", "batch, serve"]),
    (["batch", *FILES, "--workers", "0"], "0", ["'0'", "--workers", "1 to 64"]),
    (["init", "--policy=", "--facts", "f", "--journals", "j"], "--policy=", ["--policy", "empty"]),
    (["init", "--policy", "--facts", "f"], "--policy", ["--policy", "'--facts'", "--policy=VALUE"]),
    (["audit", *FILES, "--user", "eve", "--json=yes"], "--json=yes", ["--json", "takes none"]),
    (["serve", *FILES, "--listen"], "--listen", ["--listen", "nothing behind it"]),
    (["serve", *FILES, "--listen", "127.0.0.1:7007", "--workers", "65"], "65", ["'65'", "--workers", "1 to 64"]),
    (["serve", *FILES, "--listen", "127.0.0.1:7007", "--standby="], "--standby=", ["--standby", "empty"]),
    (["standby", *FILES], None, ["--listen", "wanting"]),
    (["standby", *FILES, "--listen", "127.0.0.1:7007", "--workers", "2"], "--workers", ["'--workers'", "batch, serve"]),
    (["migrate", *FILES], None, ["--to", "wanting"]),
    (["migrate", *FILES, "--to=j"], "--to=j", ["both 'j'", "another directory"]),
    (["dossier", *FILES], None, ["--user", "wanting"]),
    (["check", *FILES, "--user", "eve"], "--journals", ["'--journals'", "audit", "dossier"]),
    (["check", "--policy", "p", "--facts", "f", "--user", "eve", "eve.dossier"], "eve.dossier", ["dossier", "< eve.dossier"]),
    (["selfrun", "--seed", "-1", "--users", "1", "--asks", "1"], "--seed", ["--seed", "'-1'"]),
    (["selfrun", "--seed", "1", "--users", "0", "--asks", "1"], "0", ["'0'", "1 to 256"]),
    (["batch", *FILES, "--help"], "--help", ["no help"]),
    (["batch", "-p", "p"], "-p", ["whole words"]),
]


def journal(policy, facts, *records, version=b"2"):
    """The bytes of a journal: pairs of a kind and a text."""
    digests = hashlib.sha256(as_bytes(policy)).digest() + hashlib.sha256(as_bytes(facts)).digest()
    data = b"CQEJRNL" + version + digests
    for kind, text in records:
        data += b"\x01" + bytes([kind]) + len(text).to_bytes(2, "big") + text
    return data + b"\x00"


class Statuses(InDirectory):
    COMPLAINTS = {
        2: ("usage", ["words"]), 3: ("policy 9", ["version"]), 4: ("facts 3 0", ["UTF-8"]),
        5: ("script 3 100001", ["100,000"]),
        6: ("read fault", ["standard input", "< SCRIPT"]),
        7: ("write fault", ["standard output", "asking again is safe"]),
        8: ("missing /nowhere/p", ["'/nowhere/p'", "'/nowhere'"]), 9: ("shelf fault", ["directory", "mkdir"]),
        10: ("journal eve not a journal", ["'eve'", "init"]), 11: ("disk fault", ["sync", "error 40"]),
        12: ("links fault", ["listen", "127.0.0.1:7007"]), 13: ("out of memory", ["memory"]),
        14: ("dossier 4 4", ["Line 4", "mark"]),
    }

    def test_each_complaint_has_a_sentence(self):
        for status, (said, words) in self.COMPLAINTS.items():
            with self.subTest(status):
                self.assertSays(self.explained_once("cqe: " + said), *words)

    def test_each_status_has_a_sentence(self):
        for status, (said, _) in self.COMPLAINTS.items():
            with self.subTest(status):
                self.assertSays(of_status(status), "cqe: " + said.split()[0])

    def test_each_refusal_of_a_dossier_has_a_sentence(self):
        for said, words in (("1 9", ["Line 9", "missing"]), ("1 0", ["UTF-8"]), ("2 4", ["Line 4", "no sentence"]),
                            ("3 7", ["Line 7", "refutation", "world"]), ("4 4", ["Line 4", "mark", "blocks"]),
                            ("5 0", ["67,108,864"]), ("6 1", ["Line 1", "admissible", "cqe audit"]),
                            ("7 5", ["Line 5", "safe"])):
            with self.subTest(said):
                self.assertSays(self.explained_once("cqe: dossier " + said), *words)

    def test_the_option_for_a_status(self):
        ran = subprocess.run([EXPLAIN, "--status", "9"], capture_output=True, text=True)
        self.assertEqual(ran.returncode, 0)
        self.assertIn("cqe: shelf fault", ran.stdout)

    def test_a_line_that_is_no_complaint(self):
        for line in ("cqe: nonsense", "cqe: policy x", "cqe: facts 1", "cqe: journal eve eaten"):
            with self.subTest(line):
                self.assertIn("format", " ".join(self.explained_once(line).lines()))


class Spoken(InDirectory):
    def test_each_fault_is_explained(self):
        for words, word, names in WORDS:
            with self.subTest(words):
                finding = self.explained_once("cqe: usage", words=words)
                self.assertSays(finding, *names)
                if word is not None:
                    spot = finding.spot
                    self.assertEqual(spot.text.data[spot.start:spot.end].decode(), word)

    def test_a_user_whom_the_policy_has_not(self):
        words = ["audit", *FILES, "--user", "Eve"]
        finding = self.explained_once("cqe: usage", words=words, policy=POLICY)
        self.assertSays(finding, "'Eve'", "eve")
        self.assertEqual(finding.spot.text.data[finding.spot.start:finding.spot.end], b"Eve")

    @program.needed
    def test_the_program_says_so(self):
        for words, _, _ in WORDS:
            with self.subTest(words):
                ran = program.run(*words)
                self.assertEqual((ran.returncode, ran.stderr), (2, b"cqe: usage\n"))


class Journals(InDirectory):
    def told(self, cause, data, facts=FACTS):
        (self.directory / "j").mkdir(exist_ok=True)
        self.file("j/eve.log", data)
        return self.explained_once(f"cqe: journal eve {cause}", policy=POLICY, facts=facts,
                                   journals=str(self.directory / "j"))

    def test_each_cause_is_explained(self):
        good = journal(POLICY, FACTS, (1, b"true"), (2, b"hiv(carl)"))
        # Record 0 is kind, length and text in bytes 73 to 79, behind the gate at 72; the gate of record 1 is at 80.
        cases = [
            ("not a journal", b"closed\n", ["7 bytes", "eve.log", "init"]),
            ("not a journal", good, ["version 2", "migrate"]),
            ("old version", journal(POLICY, FACTS, version=b"1"), ["version 1", "cqe migrate", "--to"]),
            ("not empty", good, ["DIR2/eve.log", "--to"]),
            ("other policy", journal(POLICY, "other"), ["facts", "changed", "policy", "made for"]),
            ("damaged 1", good[:81] + b"\x09" + good[82:], ["record 1", "byte 81", "kind 9", "1 to 5"]),
            ("damaged 0", journal(POLICY, FACTS, (5, b"true"), version=b"1"), ["record 0", "kind 5", "1 to 4"]),
            ("disk fault", good, ["disk", "eve.log"]),
            ("stale 1", good, ["record 1", "'carl'"]),
            ("size 0", good, ["record 0", "limit"]),
            ("unlawful 0 stored yes computed no", good, ["record 0", "'yes'", "'no'"]),
            ("unsafe 0", good, ["record 0", "safe"]),
            ("not admitted", good, ["'eve'", "admitted"]),
        ]
        for cause, data, words in cases:
            with self.subTest(cause):
                self.assertSays(self.told(cause, data), *words)

    def test_the_text_of_a_stale_record(self):
        finding = self.told("stale 1", journal(POLICY, FACTS, (1, b"true"), (2, b"hiv(carl)")))
        self.assertPoints(finding, 1, 5, "carl")

    def test_which_file_has_changed(self):
        finding = self.told("other policy", journal("another", FACTS))
        self.assertRegex(finding.meaning, "policy [^ ]*policy has changed.*facts [^ ]*facts is the one")

    def test_a_journal_that_is_not_there(self):
        for cause in ("not a journal", "damaged 3", "stale 3", "other policy"):
            with self.subTest(cause):
                self.assertSays(self.explained_once(f"cqe: journal eve {cause}", journals=str(self.directory)), "'eve'")

    @program.needed
    def test_the_program_says_so(self):
        policy, facts, directory = self.file("p", POLICY), self.file("f", FACTS), self.directory / "j"
        directory.mkdir()
        good = journal(POLICY, FACTS, (1, b"true"), (2, b"hiv(carl)"))
        cases = [("not a journal", b"closed\n"), ("other policy", journal(POLICY, "other")), ("stale 1", good),
                 ("damaged 1", good[:81] + b"\x09" + good[82:]), ("unsafe 0", journal(POLICY, FACTS, (5, b"true"))),
                 ("old version", journal(POLICY, "other", version=b"1")),
                 ("unlawful 0 stored no computed yes", journal(POLICY, FACTS, (2, b"true")))]
        for cause, data in cases:
            with self.subTest(cause):
                self.file("j/eve.log", data)
                ran = program.run("batch", "--policy", policy, "--facts", facts, "--journals", directory)
                self.assertEqual((ran.returncode, ran.stderr), (10, f"cqe: journal eve {cause}\n".encode()))


class Surroundings(InDirectory):
    def test_addresses(self):
        cases = {"127.0.0.1": ["no port"], "localhost": ["no port"], "::1:7007": ["brackets", "[::1]:7007"],
                 "127.0.0.1:70000": ["65535"],
                 "http://localhost:80": ["URL"], "127.0.0.1:http": ["digits"], ":7007": ["no host"],
                 "[::1]": ["no port"]}
        for address, words in cases.items():
            with self.subTest(address):
                self.assertSays(self.explained_once("cqe: links fault", listen=address), *words)

    def test_a_port_in_use(self):
        with socket.create_server(("127.0.0.1", 0)) as taken:
            address = "127.0.0.1:%d" % taken.getsockname()[1]
            self.assertSays(self.explained_once("cqe: links fault", listen=address), "in use", address)
        self.assertSays(self.explained_once("cqe: links fault", listen=address), "free by now")

    def test_an_address_of_another_machine(self):
        self.assertSays(self.explained_once("cqe: links fault", listen="192.0.2.1:7007"), "hasn't the address")

    def test_a_directory_that_is_not_there(self):
        missing = str(self.directory / "journals")
        self.assertSays(self.explained_once("cqe: shelf fault", journals=missing), missing, "mkdir")

    def test_a_directory_to_move_to_that_is_not_there(self):
        missing = str(self.directory / "new")
        finding = self.explained_once("cqe: shelf fault", journals=str(self.directory), to=missing)
        self.assertSays(finding, missing, f"mkdir {missing}")

    def test_a_file_in_place_of_a_directory(self):
        self.assertSays(self.explained_once("cqe: shelf fault", journals=str(self.file("j", ""))), "no directory")

    def test_a_directory_in_place_of_a_file(self):
        finding = self.explained_once("cqe: shelf fault", journals=str(self.directory))
        self.assertSays(finding, "regular file")
        (self.directory / "eve.log").mkdir()
        self.assertSays(self.explained_once("cqe: shelf fault", journals=str(self.directory)), "eve.log",
                        "no regular file")

    def test_a_journal_that_another_process_holds(self):
        with open(self.file("eve.log", ""), "rb") as held:
            fcntl.flock(held, fcntl.LOCK_EX)
            if os.fstat(held.fileno()).st_ino not in surroundings.holders():
                self.skipTest("the system doesn't tell of locks")
            finding = self.explained_once("cqe: shelf fault", journals=str(self.directory))
        self.assertSays(finding, "eve.log", f"process {os.getpid()}", "one program at a time")

    def test_a_file_of_a_similar_name(self):
        self.file("ward.policy", POLICY)
        self.assertSays(self.explained_once(f"cqe: missing {self.directory}/ward.polcy"), "'ward.policy'")


class Command(InDirectory):
    def filtered(self, said, *words):
        return subprocess.run([EXPLAIN, *map(str, words)], input=said, capture_output=True, text=True, timeout=60)

    def test_a_filter_explains_and_hands_on_what_it_does_not_know(self):
        policy = self.file("p", POLICY.replace("hiv(bob)", "hiv(carl)"))
        ran = self.filtered("sh: something else\ncqe: policy 6 users[0].know[0] 3 16\nyes\n", "--policy", policy)
        self.assertEqual((ran.returncode, ran.stderr), (0, ""))
        self.assertIn("sh: something else\n", ran.stdout)
        self.assertIn(f"{policy}:11:26\n", ran.stdout)
        self.assertIn("'carl'", ran.stdout)

    def test_nothing_to_explain(self):
        self.assertEqual(self.filtered("yes\nno\n").stdout, "")

    def test_its_own_words(self):
        for words in (["--polic", "p"], ["--"]):
            with self.subTest(words):
                self.assertEqual(self.filtered("", *words).returncode, 2)

    def test_nothing_moves_the_cursor(self):
        ran = self.filtered("cqe: missing \x1b[2Jx\n")
        self.assertNotIn("\x1b", ran.stdout)

    def stand_in(self, body):
        """A program that stands in for cqe, so that the wrapper is tested without it. As cqe it writes all in one
        call, whatever the environment says of Python (-E)."""
        path = self.file("cqe", f"#!{sys.executable} -E\nimport sys, os, signal\n{body}\n")
        path.chmod(0o755)
        return path

    def test_a_wrapper_keeps_replies_and_status(self):
        script = "domain person = ann\nrelation hiv(person)\nmethod lying\nsecret false\nask hiv(carl)\n"
        cqe = self.stand_in("text = sys.stdin.read(); print('error 20 3 4'); print('cqe: write fault', "
                            "file=sys.stderr); sys.exit(7)")
        for given in ("pipe", "file"):
            with self.subTest(given):
                words = [EXPLAIN, "--", cqe, "case"]
                if given == "pipe":
                    ran = subprocess.run(words, input=script, capture_output=True, text=True, timeout=60)
                else:
                    with open(self.file("script", script)) as file:
                        ran = subprocess.run(words, stdin=file, capture_output=True, text=True, timeout=60)
                self.assertEqual((ran.returncode, ran.stdout), (7, "error 20 3 4\n"))
                self.assertIn("standard input:5:9", ran.stderr)
                self.assertIn("asking again is safe", ran.stderr)

    def test_a_wrapper_takes_the_files_from_the_words(self):
        policy = self.file("p", POLICY.replace("hiv(bob)", "hiv(carl)"))
        cqe = self.stand_in("print('cqe: policy 6 users[0].know[0] 3 16', file=sys.stderr); sys.exit(3)")
        ran = subprocess.run([EXPLAIN, "--", cqe, "init", f"--policy={policy}", "--facts", "f", "--journals", "j"],
                             capture_output=True, text=True)
        self.assertEqual((ran.returncode, ran.stdout), (3, ""))
        self.assertIn(f"{policy}:11:26\n", ran.stderr)

    def test_a_status_without_a_complaint(self):
        ran = subprocess.run([EXPLAIN, "--", self.stand_in("sys.exit(9)"), "init"], capture_output=True, text=True)
        self.assertEqual(ran.returncode, 9)
        self.assertIn("shelf fault", ran.stderr)

    def in_a_shell(self, command, cqe):
        """A wrapper around a stand-in, called by a line of a shell in which it is "$0" -- "$1"."""
        return subprocess.run(["sh", "-c", command, EXPLAIN, cqe], stdin=subprocess.DEVNULL, capture_output=True,
                              text=True, timeout=60)

    def test_replies_that_cannot_be_written(self):
        """The program has written all into a pipe and ended with 0 when the write of the wrapper fails."""
        cqe = self.stand_in("print('yes'); print('no')")
        for stream, why in ((">/dev/full", "No space left"), (">&-", "it is closed")):
            with self.subTest(stream):
                ran = self.in_a_shell(f'"$0" -- "$1" case {stream}', cqe)
                self.assertEqual(ran.returncode, 7)
                self.assertIn(f"standard output: {why}", ran.stderr)
                self.assertIn("asking again is safe", ran.stderr)

    def test_a_program_that_fails_besides(self):
        cqe = self.stand_in("print('yes'); print('cqe: journal eve not a journal', file=sys.stderr); sys.exit(10)")
        ran = self.in_a_shell('"$0" -- "$1" case >/dev/full', cqe)
        self.assertEqual(ran.returncode, 10)
        self.assertIn("'eve'", ran.stderr)

    def test_an_input_that_cannot_be_read(self):
        """The program is to find that by itself."""
        body = ("try:\n    os.read(0, 1)\nexcept OSError:\n    print('cqe: read fault', file=sys.stderr)\n"
                "    sys.exit(6)")
        for stream in ("<&-", "0>/dev/null"):
            with self.subTest(stream):
                ran = self.in_a_shell(f'"$0" -- "$1" case {stream}', self.stand_in(body))
                self.assertEqual((ran.returncode, ran.stdout), (6, ""))
                self.assertIn("cqe batch .. < SCRIPT", ran.stderr)

    def test_streams_that_are_closed(self):
        cqe = self.stand_in("print('yes'); print('cqe: write fault', file=sys.stderr); sys.exit(7)")
        ran = self.in_a_shell('"$0" -- "$1" case 2>&-', cqe)
        self.assertEqual((ran.returncode, ran.stdout, ran.stderr), (7, "yes\n", ""))
        self.assertEqual(self.in_a_shell('"$0" <&-', cqe).returncode, 2)

    def test_files_that_cannot_be_read(self):
        ran = self.filtered("cqe: facts 1 2\n", "--policy", self.file("p", POLICY), "--facts", "/nowhere/facts")
        self.assertEqual(ran.returncode, 0)
        self.assertRegex(ran.stderr, "^cqe-explain: .*--facts.*: /nowhere/facts\n$")

    def test_a_signal_goes_to_the_program_and_comes_back(self):
        cqe = self.stand_in("print('* restarted', flush=True); signal.pause()")
        running = subprocess.Popen([EXPLAIN, "--", cqe, "serve"], stdout=subprocess.PIPE, stderr=subprocess.DEVNULL)
        self.addCleanup(running.stdout.close)
        running.stdout.readline()
        running.send_signal(signal.SIGTERM)
        self.assertEqual(running.wait(30), -signal.SIGTERM)

    def test_a_program_that_is_not_there(self):
        ran = subprocess.run([EXPLAIN, "--", str(self.directory / "cqe"), "case"], capture_output=True, text=True)
        self.assertEqual(ran.returncode, 127)
        self.assertIn("can't be started", ran.stderr)

    @program.needed
    def test_around_the_program(self):
        ran = subprocess.run([EXPLAIN, "--", program.path(), "case"], input="domain d = a\nrelation r(d)\nfact r(b)\n",
                             capture_output=True, text=True)
        self.assertEqual((ran.returncode, ran.stdout), (5, ""))
        self.assertIn("standard input:3:8", ran.stderr)
        self.assertIn("'b'", ran.stderr)
