"""The client: against a server that a test makes up, and against the program."""

import contextlib
import hashlib
import pathlib
import socket
import ssl
import subprocess
import sys
import tempfile
import threading
import time
import unittest
from collections.abc import Iterator

TOP = pathlib.Path(__file__).resolve().parents[2]
sys.path[:0] = [str(TOP / "clients" / "python"), str(pathlib.Path(__file__).parent)]

import cqe  # noqa: E402
import program  # noqa: E402
from fake_server import Line, answering, front_in, serving, tls_needed  # noqa: E402


class Lines(unittest.TestCase):
    """What is made of a reply, without any connection."""

    def test_each_number_has_its_class(self) -> None:
        table = [
            ("error 21", cqe.TooLarge, cqe.Again.NEVER),
            ("error 22", cqe.HistoryFull, cqe.Again.NEVER),
            ("error 23", cqe.NoSuchUser, cqe.Again.OPERATOR),
            ("error 24", cqe.NotAdmitted, cqe.Again.OPERATOR),
            ("error 25", cqe.NotLoggedIn, cqe.Again.LOGIN),
            ("error 26", cqe.UnknownLine, cqe.Again.NEVER),
            ("error 27", cqe.SecretsFull, cqe.Again.NEVER),
            ("error 40", cqe.JournalFailed, cqe.Again.OPERATOR),
            ("error 41", cqe.JournalRefused, cqe.Again.OPERATOR),
            ("error 50", cqe.OutOfMemory, cqe.Again.LATER),
            ("error 20 3 0", cqe.NotASentence, cqe.Again.NEVER),
            ("error 28 2", cqe.CannotList, cqe.Again.NEVER),
            ("error 77 1", cqe.OtherRefusal, cqe.Again.NEVER),
        ]
        for line, kind, again in table:
            with self.subTest(line):
                refusal = cqe.refusal_of(line, "hiv(x)")
                self.assertIs(type(refusal), kind)
                self.assertIs(refusal.again, again)
                self.assertEqual(refusal.line, line)
                self.assertTrue(str(refusal))

    def test_the_mistakes_of_a_sentence(self) -> None:
        names = ["BAD_CHARACTER", "UNEXPECTED", "UNKNOWN_NAME", "WRONG_DOMAIN", "TOO_DEEP", "WRONG_COLUMNS"]
        for kind, name in enumerate(names, 1):
            refusal = cqe.refusal_of(f"error 20 {kind} 4", "hiv($")
            self.assertEqual((refusal.mistake.name, refusal.place, refusal.text), (name, 4, "hiv($"))
        self.assertEqual(str(cqe.refusal_of("error 20 2 4", "hiv(")), "something is missing at the end")

    def test_what_is_no_reply(self) -> None:
        for line in ["", "Yes", "yes ", "error", "error x", "error 20 7 0", "error 20 2 9", "error 28 4", "welcome"]:
            with self.subTest(line), self.assertRaises(cqe.ProtocolError):
                cqe.answer_of(line, "hiv(ann)")

    def test_addresses(self) -> None:
        self.assertEqual(cqe.endpoint_of("127.0.0.1:7007"), ("127.0.0.1", 7007))
        self.assertEqual(cqe.endpoint_of("[::1]:7007"), ("::1", 7007))
        for address in ["127.0.0.1", "::1:7007", "[x]:7007", ":7007", "ward:0", "ward:65536", "ward:http"]:
            with self.subTest(address), self.assertRaises(cqe.NotSent):
                cqe.endpoint_of(address)


class Sessions(unittest.TestCase):
    """Sessions with a made-up server."""

    @contextlib.contextmanager
    def session(self, *replies: str, timeout: float = 5, heard: list[str] | None = None) -> Iterator[cqe.Session]:
        with serving(answering(*replies, heard=heard)) as address:
            session = cqe.connect(address, reply_timeout=timeout)
            try:
                yield session
            finally:
                session.close()

    def test_a_session(self) -> None:
        heard: list[str] = []
        with serving(answering("welcome", "yes", "no", "refused", "undecided", "bye", heard=heard)) as address:
            with cqe.connect(address) as session:
                session.login("nurse", "night shift ")
                self.assertEqual(session.user, "nurse")
                replies = [session.ask(text) for text in ["hiv(ann)", " true", "", "false\t"]]
            self.assertFalse(session.is_open)
        self.assertEqual(replies, [cqe.Reply.YES, cqe.Reply.NO, cqe.Reply.REFUSED, cqe.Reply.UNDECIDED])
        self.assertEqual(heard, ["login nurse night shift ", "ask hiv(ann)", "ask  true", "ask ", "ask false\t",
                                 "quit"])

    def test_a_refusal_leaves_the_session_open(self) -> None:
        with self.session("error 25", "welcome", "error 20 2 4", "yes") as session:
            with self.assertRaises(cqe.NotLoggedIn):
                session.login("nurse", "guess")
            session.login("nurse", "night shift")
            with self.assertRaises(cqe.NotASentence):
                session.ask("hiv(")
            self.assertIs(session.ask("true"), cqe.Reply.YES)

    def test_what_is_not_sent(self) -> None:
        heard: list[str] = []
        with self.session("welcome", "no", heard=heard) as session:
            for name, phrase in [("", "x"), ("a b", "x"), ("v1", "x"), ("not", "x"), ("1a", "x"), ("a" * 33, "x"),
                                 ("nurse", ""), ("nurse", "x" * 257), ("nurse", "a\nb"), ("nurse", "gr\u00fcn")]:
                with self.subTest(name=name, phrase=phrase), self.assertRaises(cqe.NotSent):
                    session.login(name, phrase)
            session.login("nurse", "x" * 256)
            with self.assertRaises(cqe.NotSent):
                session.login("nurse", "x")
            for text, place in [("true\nquit", 4), ("a = \u00fc", 4), ("\r", 0), ("true\0", 4), ("x" * 4093, None)]:
                with self.subTest(text[:20]), self.assertRaises(cqe.NotSent) as caught:
                    session.ask(text)
                self.assertEqual(caught.exception.place, place)
            for count in [0, 5]:
                with self.assertRaises(cqe.NotSent):
                    session.list(count, "true")
            session.ask("x" * 4092)
        self.assertEqual([len(line) for line in heard], [len("login nurse ") + 256, 4096])

    def test_a_connection_that_ends_before_the_reply(self) -> None:
        def hears(line: Line) -> None:
            line.heard()

        def hears_and_resets(line: Line) -> None:
            line.heard()
            line.resets()

        def writes_half(line: Line) -> None:
            line.heard()
            line.writes(b"ye")

        for visit in [hears, hears_and_resets, writes_half]:
            with self.subTest(visit.__name__), serving(visit) as address:
                session = cqe.connect(address)
                with self.assertRaises(cqe.ConnectionLost):
                    session.ask("true")
                self.assertFalse(session.is_open)
                with self.assertRaises(cqe.NotSent):
                    session.ask("true")

    def test_nobody_listens(self) -> None:
        with socket.create_server(("127.0.0.1", 0)) as listener:
            port = listener.getsockname()[1]
        with self.assertRaises(cqe.CannotConnect):
            cqe.connect(f"127.0.0.1:{port}", connect_timeout=2)

    def test_slow_replies(self) -> None:
        over = threading.Event()

        def says_nothing(line: Line) -> None:
            over.wait(5)

        def drips(line: Line) -> None:
            with contextlib.suppress(OSError):
                while not over.wait(0.02):
                    line.writes(b"y")

        for visit in [says_nothing, drips]:
            over.clear()
            with self.subTest(visit.__name__), serving(visit) as address:
                session = cqe.connect(address, reply_timeout=0.2)
                began = time.monotonic()
                with self.assertRaises(cqe.ReplyTimeout):
                    session.ask("true")
                self.assertLess(time.monotonic() - began, 2)
                self.assertFalse(session.is_open)
                over.set()

    def test_garbage(self) -> None:
        for garbage in [b"HTTP/1.1 400 Bad Request\r\n", b"\xff\xfe\n", b"\n", b"x" * 9000, b"yes\r\n", b"done 2\n"]:
            def writes(line: Line) -> None:
                line.heard()
                line.writes(garbage)

            with self.subTest(garbage[:20]), serving(writes) as address:
                session = cqe.connect(address)
                with self.assertRaises(cqe.ProtocolError):
                    session.ask("true")
                self.assertFalse(session.is_open)

    def test_a_line_that_nobody_asked_for_is_no_reply(self) -> None:
        with self.session("yes\nno", "yes") as session:
            session.ask("true")
            with self.assertRaises(cqe.ProtocolError):
                session.ask("false")
            self.assertFalse(session.is_open)

    def test_an_error_in_the_block_closes_without_quit(self) -> None:
        heard: list[str] = []
        with serving(answering("yes", "bye", heard=heard)) as address:
            with self.assertRaises(ZeroDivisionError), cqe.connect(address) as session:
                session.ask("true")
                raise ZeroDivisionError
        self.assertEqual(heard, ["ask true", ""])


@tls_needed
class Encrypted(unittest.TestCase):
    """A server behind a front that has TLS."""

    def setUp(self) -> None:
        self.front, self.certificate = front_in(pathlib.Path(self.enterContext(tempfile.TemporaryDirectory())))

    def test_a_session(self) -> None:
        trusting = ssl.create_default_context(cafile=self.certificate)
        with serving(answering("welcome", "no", "bye"), tls=self.front) as address:
            with cqe.connect(address, tls=trusting) as session:
                session.login("nurse", "night shift")
                self.assertIs(session.ask("hiv(ann)"), cqe.Reply.NO)

    def test_a_front_that_nobody_vouches_for(self) -> None:
        with serving(answering("welcome"), tls=self.front) as address, self.assertRaises(cqe.CannotConnect):
            cqe.connect(address, tls=ssl.create_default_context())


class Lists(unittest.TestCase):
    """Lists, by the later protocol: one line an instance, then `done` with their number."""

    def listed(self, count: int, *replies: str) -> tuple[cqe.Instance, ...]:
        heard: list[str] = []
        with serving(answering(*replies, heard=heard)) as address:
            session = cqe.connect(address, reply_timeout=2)
            try:
                return session.list(count, "exists x: person . hiv(x)")
            finally:
                self.heard = heard
                session.close()

    def test_instances(self) -> None:
        instances = self.listed(1, "ann no\nbob refused\ndone 2")
        self.assertEqual([(instance.names, instance.reply) for instance in instances],
                         [(("ann",), cqe.Reply.NO), (("bob",), cqe.Reply.REFUSED)])
        self.assertEqual(self.heard, ["list 1 exists x: person . hiv(x)"])

    def test_names_that_look_like_other_words(self) -> None:
        instances = self.listed(2, "error done yes\ndone error error 24\ndone 2")
        self.assertEqual(instances[0], cqe.Instance(("error", "done"), cqe.Reply.YES))
        self.assertEqual(instances[1].names, ("done", "error"))
        self.assertIsInstance(instances[1].reply, cqe.NotAdmitted)

    def test_refusals_of_the_whole(self) -> None:
        table = [("error 26", cqe.ListUnknown), ("error 25", cqe.NotLoggedIn), ("error 28 1", cqe.CannotList),
                 ("error 20 2 24", cqe.NotASentence)]
        for reply, kind in table:
            with self.subTest(reply), self.assertRaises(kind):
                self.listed(1, reply)
            self.assertEqual(len(self.heard), 1)

    def test_no_memory_for_the_list(self) -> None:
        with self.assertRaises(cqe.OutOfMemory):
            self.listed(1, "error 50", "error 26")
        self.assertEqual(self.heard[1:], [""])

    def test_no_memory_for_an_instance(self) -> None:
        first = self.listed(1, "error 50\nbob no\ndone 2", "error 26")
        self.assertEqual(self.heard[1:], [""])
        later = self.listed(1, "ann no\nerror 50\ndone 2")
        self.assertEqual(len(self.heard), 1)
        self.assertEqual([instance.names for instance in first + later], [(), ("bob",), ("ann",), ()])
        self.assertIsInstance(first[0].reply, cqe.OutOfMemory)
        self.assertIsInstance(later[1].reply, cqe.OutOfMemory)

    def test_the_session_goes_on_behind_a_list(self) -> None:
        replies = ["error 50\nbob no\ndone 2", "error 26", "error 28 3", "ann yes\n" * 256 + "done 256", "no"]
        with serving(answering(*replies)) as address:
            session = cqe.connect(address, reply_timeout=2)
            self.assertEqual(len(session.list(1, "exists x: person . hiv(x)")), 2)
            with self.assertRaises(cqe.CannotList):
                session.list(1, "exists x: person . hiv(x)")
            self.assertEqual(len(session.list(1, "exists x: person . hiv(x)")), 256)
            self.assertIs(session.ask("true"), cqe.Reply.NO)
            session.close()

    def test_lines_that_are_no_list(self) -> None:
        for reply in ["ann no\ndone 1\nno", "ann no\ndone 2", "no", "ann bob no", "ann no\nerror 25", "1 no",
                      "ann no\n" * 257 + "done 257"]:
            with self.subTest(reply[:20]), serving(answering(reply)) as address:
                session = cqe.connect(address, reply_timeout=2)
                with self.assertRaises(cqe.ProtocolError):
                    session.list(1, "exists x: person . hiv(x)")
                    session.ask("true")
                self.assertFalse(session.is_open)


POLICY = f"""version = 1
[domains]
person = ["ann", "bob"]
number = [{", ".join(f'"n{number}"' for number in range(150))}]
[relations]
drug = ["person"]
hiv = ["person"]
even = ["number"]
""" + "".join(f"""[[users]]
name = "{name}"
method = "{method}"
know = [{know}]
secrets = ["hiv(ann)"]
budget = {budget}
token = "d225ac8deddee5cebb01c1967b550ac9ff985ffafba37aca87a932ab288d5676"
""" for name, method, know, budget in [
    ("nurse", "lying", '"forall x: person . drug(x) -> hiv(x)"', 1_000_000),
    ("clerk", "refusal", '"forall x: person . drug(x) -> hiv(x)"', 1_000_000),
    ("hasty", "lying", "", 1),  # any search costs more
    ("aware", "lying", '"hiv(ann)"', 1_000_000),  # knows the secret, so isn't admitted
    ("shut", "lying", "", 1_000_000),  # the journal is spoilt below
])
FACTS = "hiv(ann)\ndrug(ann)\n"
PHRASE = "night shift"


def free_port() -> int:
    with socket.create_server(("127.0.0.1", 0)) as listener:
        return int(listener.getsockname()[1])


@program.needed
class Program(unittest.TestCase):
    """The client against the program itself, over journals of its own."""

    def setUp(self) -> None:
        self.place = pathlib.Path(self.enterContext(tempfile.TemporaryDirectory()))
        (self.place / "policy").write_text(POLICY)
        (self.place / "facts").write_text(FACTS)
        (self.place / "journals").mkdir()
        self.run_program("init")

    def words(self, command: str, *more: str) -> list[str]:
        return [str(program.path()), command, "--policy", "policy", "--facts", "facts", "--journals", "journals", *more]

    def run_program(self, command: str, *more: str) -> str:
        return subprocess.run(self.words(command, *more), cwd=self.place, check=True, capture_output=True, text=True,
                              timeout=60).stdout

    @contextlib.contextmanager
    def server(self, sessions: int, status: int = 0) -> Iterator[str]:
        """A server that ends by itself behind so many sessions."""
        address = f"127.0.0.1:{free_port()}"
        words = self.words("serve", "--listen", address, "--workers", "1", "--sessions", str(sessions))
        with subprocess.Popen(words, cwd=self.place, stderr=subprocess.DEVNULL) as server:
            try:
                yield address
                self.assertEqual(server.wait(30), status)
            finally:
                server.kill()

    def session(self, address: str, name: str) -> cqe.Session:
        """A session of a user, as soon as the server listens."""
        for _ in range(100):
            with contextlib.suppress(cqe.CannotConnect):
                session = cqe.connect(address, reply_timeout=60)
                break
            time.sleep(0.1)
        else:
            self.fail("the server doesn't listen")
        session.login(name, PHRASE)
        return session

    def entries(self) -> list[str]:
        """What the nurse was told, as the audit prints it between her own line and those of her secrets."""
        return [line for line in self.run_program("audit", "--user", "nurse").splitlines() if line[0].isdigit()]

    def test_replies(self) -> None:
        with self.server(sessions=4) as address:
            with self.session(address, "nurse") as nurse:
                # A yes would show that Ann has hiv, by what the nurse knows: she is lied to.
                self.assertIs(nurse.ask("drug(ann)"), cqe.Reply.NO)
                self.assertIs(nurse.ask("exists x: person . hiv(x)"), cqe.Reply.YES)
                # A no would leave only Ann for that yes.
                self.assertIs(nurse.ask("hiv(bob)".ljust(4092)), cqe.Reply.YES)
                # The same two replies again, each as a question of its own.
                listed = [(one.names, one.reply) for one in nurse.list(1, "exists x: person . hiv(x)")]
                self.assertEqual(listed, [(("ann",), cqe.Reply.NO), (("bob",), cqe.Reply.YES)])
            with self.session(address, "clerk") as clerk:
                self.assertIs(clerk.ask("drug(ann)"), cqe.Reply.REFUSED)
            with self.session(address, "hasty") as hasty:
                self.assertIs(hasty.ask("drug(ann)"), cqe.Reply.UNDECIDED)
            with self.session(address, "nurse") as nurse:
                self.assertIs(nurse.ask("drug(ann)"), cqe.Reply.NO)

    def test_mistakes_and_their_places(self) -> None:
        deep = "(" * 65 + "true" + ")" * 65
        table = [("hiv($)", cqe.Mistake.BAD_CHARACTER, 4), ("exists x: person . drug(", cqe.Mistake.UNEXPECTED, 24),
                 ("hiv(carl)", cqe.Mistake.UNKNOWN_NAME, 4), ("hiv(n1)", cqe.Mistake.WRONG_DOMAIN, 4),
                 (deep, cqe.Mistake.TOO_DEEP, 64), ("hiv(ann, bob)", cqe.Mistake.WRONG_COLUMNS, 7)]
        with self.server(sessions=1) as address, self.session(address, "nurse") as nurse:
            for text, mistake, place in table:
                with self.subTest(text[:30]), self.assertRaises(cqe.NotASentence) as caught:
                    nurse.ask(text)
                self.assertEqual((caught.exception.mistake, caught.exception.place), (mistake, place))

    def test_refusals(self) -> None:
        (self.place / "journals" / "shut.log").write_text("closed\n")
        large = "forall x: number . forall y: number . x = y"  # 150 * 151 + 1 nodes
        with self.server(sessions=4, status=10) as address:
            with self.session(address, "nurse") as nurse, self.assertRaises(cqe.TooLarge):
                nurse.ask(large)
            with self.session(address, "aware") as aware, self.assertRaises(cqe.NotAdmitted):
                aware.ask("true")
            with self.session(address, "shut") as shut, self.assertRaises(cqe.JournalRefused):
                shut.ask("true")
            with cqe.connect(address) as stranger:
                with self.assertRaises(cqe.NotLoggedIn):
                    stranger.ask("true")
                with self.assertRaises(cqe.NotLoggedIn):
                    stranger.login("nurse", "day shift")
                stranger.login("nurse", PHRASE)

    def test_a_history_that_is_full(self) -> None:
        # 256 texts of 4,092 bytes are 1,047,552 bytes, and one more is above 1,048,576. The journal has 255 of them.
        text = "true".ljust(4092)
        digests = b"".join(hashlib.sha256(content.encode()).digest() for content in [POLICY, FACTS])
        record = b"\1\4" + len(text).to_bytes(2, "big") + text.encode()
        (self.place / "journals" / "hasty.log").write_bytes(b"CQEJRNL2" + digests + record * 255 + b"\0")
        with self.server(sessions=1) as address, self.session(address, "hasty") as hasty:
            self.assertIs(hasty.ask(text), cqe.Reply.UNDECIDED)
            with self.assertRaises(cqe.HistoryFull):
                hasty.ask(text)

    def test_a_lost_reply_was_journaled_and_comes_again(self) -> None:
        with self.server(sessions=2) as address:
            self.session(address, "nurse").close()

            def loses_the_reply(line: Line) -> None:
                with socket.create_connection(cqe.endpoint_of(address), 10) as server:
                    replies = server.makefile("rb")
                    for _ in range(2):
                        server.sendall(line.heard().encode() + b"\n")
                        reply = replies.readline()
                        if reply == b"welcome\n":
                            line.writes(reply)

            with serving(loses_the_reply) as front:
                session = cqe.connect(front)
                session.login("nurse", PHRASE)
                with self.assertRaises(cqe.ConnectionLost):
                    session.ask("drug(ann)")
        self.assertEqual(self.entries(), ["1 no drug(ann)"])
        with self.server(sessions=1) as address, self.session(address, "nurse") as nurse:
            self.assertIs(nurse.ask("drug(ann)"), cqe.Reply.NO)
        self.assertEqual(self.entries(), ["1 no drug(ann)", "2 no drug(ann)"])


if __name__ == "__main__":
    unittest.main()
