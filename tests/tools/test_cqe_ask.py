"""The shell for people, against a server that a test makes up."""

import contextlib
import os
import pathlib
import pty
import select
import signal
import subprocess
import sys
import tempfile
import time
import unittest

TOP = pathlib.Path(__file__).resolve().parents[2]
ASK = str(TOP / "clients" / "python" / "cqe-ask")
sys.path.insert(0, str(pathlib.Path(__file__).parent))

from fake_server import Line, answering, front_in, serving, tls_needed  # noqa: E402

PHRASE = "night shift"


def ask(address: str, questions: str, *options: str, **variables: str) -> subprocess.CompletedProcess[str]:
    """What cqe-ask does with questions from a pipe, without a terminal."""
    environment = {"PATH": os.environ["PATH"], "CQE_PHRASE": PHRASE} | variables
    return subprocess.run([sys.executable, ASK, address, "nurse", *options], input=questions, text=True, timeout=30,
                          capture_output=True, start_new_session=True,
                          env={name: value for name, value in environment.items() if value})


class Pipe(unittest.TestCase):
    def test_questions_and_replies(self) -> None:
        heard: list[str] = []
        with serving(answering("welcome", "yes", "refused", "bye", heard=heard)) as address:
            done = ask(address, "# two questions\n\nhiv(ann)\r\n  hiv(bob)")
        self.assertEqual((done.stdout, done.stderr, done.returncode), ("yes\nrefused\n", "", 0))
        self.assertEqual(heard, ["login nurse night shift", "ask hiv(ann)", "ask   hiv(bob)", "quit"])

    def test_a_question_without_an_answer(self) -> None:
        with serving(answering("welcome", "error 20 2 4", "error 24", "no", "bye")) as address:
            done = ask(address, "hiv(\ntrue\nhiv(\u00fc)\nfalse\n")
        self.assertEqual((done.stdout, done.returncode), ("error 20 2 4\nerror 24\nnot sent\nno\n", 1))
        self.assertEqual(done.stderr.splitlines()[:4],
                         ["line 1:", "  hiv(", "      ^", "something is missing at the end (error 20 2 4)"])
        self.assertEqual(done.stderr.splitlines()[4:6],
                         ["line 2:", "you aren't admitted: by the policy you get no answer (error 24); "
                                     "asking again helps only after the operator has looked at it"])
        self.assertEqual(done.stderr.splitlines()[6:9], ["line 3:", "  hiv(\u00fc)", "      ^"])

    def test_the_caret_in_a_long_question(self) -> None:
        text = "(" * 100 + "$" + ")" * 100
        with serving(answering("welcome", "error 20 1 100", "bye")) as address:
            shown, caret = ask(address, text).stderr.splitlines()[1:3]
        self.assertEqual(shown[caret.index("^")], "$")
        self.assertLess(len(shown), 81)

    def test_lists(self) -> None:
        table = [("ann no\nbob refused\ndone 2", 0, ""), ("ann no\nbob error 22\ndone 2", 1, ""),
                 ("error 26", 1, "this server can't list")]
        for reply, status, said in table:
            with self.subTest(reply), serving(answering("welcome", reply, "bye")) as address:
                done = ask(address, "list 1 exists x: person . hiv(x)\n")
                self.assertEqual((done.stdout, done.returncode), (reply + "\n", status))
                self.assertIn(said, done.stderr)

    def test_a_lost_connection_is_made_again(self) -> None:
        heard: list[str] = []

        def loses_the_reply(line: Line) -> None:
            line.heard()
            line.says("welcome")
            line.heard()

        with serving(loses_the_reply, answering("welcome", "no", "bye", heard=heard)) as address:
            done = ask(address, "hiv(ann)\n")
        self.assertEqual((done.stdout, done.returncode), ("no\n", 0))
        self.assertIn("connecting and asking again", done.stderr)
        self.assertEqual(heard, ["login nurse night shift", "ask hiv(ann)", "quit"])

    def test_no_reply_in_time_ends_it(self) -> None:
        def says_nothing(line: Line) -> None:
            line.heard()
            line.says("welcome")
            line.heard()
            line.heard()

        with serving(says_nothing) as address:
            done = ask(address, "true\nfalse\n", "--reply-timeout", "0.3")
        self.assertEqual((done.stdout, done.returncode), ("", 3))
        self.assertIn("line 1 has no reply", done.stderr)
        self.assertNotIn("connecting", done.stderr)

    def test_without_standard_input_nothing_is_asked(self) -> None:
        words = ["sh", "-c", 'exec "$@" <&-', "sh", sys.executable, ASK, "127.0.0.1:1", "nurse"]
        done = subprocess.run(words, capture_output=True, text=True, timeout=30)
        self.assertEqual((done.stderr, done.returncode), ("cqe-ask: there is no standard input\n", 2))

    @tls_needed
    def test_a_front_with_tls(self) -> None:
        front, certificate = front_in(pathlib.Path(self.enterContext(tempfile.TemporaryDirectory())))
        with serving(answering("welcome", "no", "bye"), tls=front) as address:
            done = ask(address, "hiv(ann)\n", "--tls", "--ca", certificate)
        self.assertEqual((done.stdout, done.returncode), ("no\n", 0))

    def test_no_session(self) -> None:
        with serving(answering("error 25")) as address:
            done = ask(address, "true\n")
        self.assertEqual((done.stdout, done.returncode), ("", 3))
        self.assertEqual(done.stderr, "cqe-ask: the name and the pass phrase don't fit (error 25)\n")
        self.assertEqual(ask(address, "true\n").returncode, 3)  # nobody listens there any more
        self.assertEqual(ask("nowhere", "true\n").returncode, 2)


class Phrases(unittest.TestCase):
    def heard(self, *options: str, **variables: str) -> list[str]:
        heard: list[str] = []
        with serving(answering("welcome", "bye", heard=heard)) as address:
            self.assertEqual(ask(address, "", *options, **variables).returncode, 0)
        return heard

    def test_from_a_file(self) -> None:
        with tempfile.NamedTemporaryFile("w") as file:
            file.write("front desk\nnot this\n")
            file.flush()
            self.assertEqual(self.heard("--phrase-file", file.name)[0], "login nurse front desk")

    def test_from_the_environment(self) -> None:
        self.assertEqual(self.heard(CQE_PHRASE="day shift")[0], "login nurse day shift")

    def test_from_nowhere(self) -> None:
        done = ask("127.0.0.1:1", "night shift\n", CQE_PHRASE="")
        self.assertEqual((done.stdout, done.returncode), ("", 2))
        self.assertIn("CQE_PHRASE", done.stderr)


class Terminal(unittest.TestCase):
    """A person types at a terminal."""

    def typed(self, address: str, *answers: tuple[str, str]) -> str:
        """What the screen shows where each text is typed as soon as its prompt is there."""
        process, screen = pty.fork()
        if process == 0:
            os.execve(sys.executable, [sys.executable, ASK, address, "nurse"],
                      {"PATH": os.environ["PATH"], "TERM": "dumb", "INPUTRC": "/dev/null"})
        shown = ""
        try:
            for prompt, text in answers:
                shown += self.read(screen, prompt)
                os.write(screen, text.encode() + b"\n")
            shown += self.read(screen, None)
            _, status = os.waitpid(process, 0)
        except BaseException:
            os.kill(process, signal.SIGKILL)
            os.waitpid(process, 0)
            raise
        finally:
            os.close(screen)
        self.assertEqual(os.waitstatus_to_exitcode(status), 0)
        return shown.replace("\r\n", "\n")

    def read(self, screen: int, until: str | None) -> str:
        shown, deadline = "", time.monotonic() + 20
        with contextlib.suppress(OSError):  # the end of a terminal
            while until is None or not shown.endswith(until):
                if not select.select([screen], [], [], max(0, deadline - time.monotonic()))[0]:
                    self.fail(f"nothing comes behind {shown!r}")
                piece = os.read(screen, 4096).decode()
                if not piece:
                    break
                shown += piece
        return shown

    def test_a_conversation(self) -> None:
        heard: list[str] = []
        replies = ["welcome", "refused", "error 20 3 4", "error 22", "bye"]
        with serving(answering(*replies, heard=heard)) as address:
            shown = self.typed(address, ("nurse: ", PHRASE), ("nurse> ", "hiv(ann)"), ("nurse> ", "hiv(carl)"),
                               ("nurse> ", "help"), ("nurse> ", "true"), ("nurse> ", "quit"))
        self.assertEqual(heard, ["login nurse night shift", "ask hiv(ann)", "ask hiv(carl)", "ask true", "quit"])
        self.assertNotIn(PHRASE, shown)
        self.assertIn("\nrefused: you don't get this answer\n", shown)
        self.assertIn("\n  hiv(carl)\n      ^\nno relation, domain, constant or variable has this name here", shown)
        self.assertIn("list K SENTENCE", shown)
        self.assertIn("your history is full (error 22); asking the same again doesn't help", shown)


if __name__ == "__main__":
    unittest.main()
