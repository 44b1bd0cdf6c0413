"""A client of `cqe serve`: one file, Python 3.11, the standard library alone.

    import cqe

    with cqe.connect("127.0.0.1:7007") as session:
        session.login("nurse", phrase)
        print(session.ask("hiv(ann)"))  # a Reply: yes, no, refused or undecided

A question that gets no such reply raises. `Refusal` is an `error N` of the server, with a class for each number: the
session goes on. `NotSent` was refused here, and nothing was sent. `ConnectionLost` (no reply came, or none in time) and
`ProtocolError` (what came is no reply) end the session, since the next reply couldn't be told from a late one.

When the connection is lost
---------------------------
A question whose reply didn't come was settled or it wasn't. If it was, its answer is in the user's journal, and each
later answer counts it. The client can't tell which, and needn't: connect, log in, and ask the same text again. For the
secrets asking again is always safe. What comes then is decided by the history as it stands:

- If the lost answer was yes or no and is in the history, it comes again. Instead of it `undecided` comes where a search
  now costs more than the user's budget, `error 22` where the history is full, `error 21` where the view is too large.
- If it was refused or undecided, it comes again, or `error 22`, where the user was told nothing else in the meantime.
- If it wasn't settled, the question is asked now.
- An answer that is asked twice has two of the 4,096 entries of the history.
- A line that is cut on its way may be taken for a line: where the server's input ends behind a beginning of the text
  that is itself a sentence, this sentence was asked. A connection that is reset has no such end.

The protocol is in clear: listen at the loopback address, or put TLS in front of the server and give `connect` its
context.
A session is for one thread at a time. Open one for each thread: all sessions of a user have one history.
"""

from __future__ import annotations

import contextlib
import enum
import re
import socket
import ssl
import time
from collections.abc import Iterator
from dataclasses import dataclass
from types import TracebackType
from typing import ClassVar

LINE_LIMIT = 4096  # bytes of a line, without its line feed
PHRASE_LIMIT = 256  # bytes of a pass phrase
INSTANCE_LIMIT = 256  # instances of a list

_KEYWORDS = {"not", "and", "or", "true", "false", "forall", "exists"} | {f"v{number}" for number in range(1, 9)}
_NAME = re.compile(r"[A-Za-z][A-Za-z0-9_]{0,31}")
_NUMBER = re.compile(r"[0-9]{1,10}")
_DONE = re.compile(r"done ([0-9]{1,10})")
_NOT_IN_A_LINE = re.compile(r"[^\t -~]")


class Reply(enum.Enum):
    """What the censor says to a question. It is in the user's history from then on."""

    YES = "yes"
    NO = "no"
    REFUSED = "refused"
    UNDECIDED = "undecided"

    def __str__(self) -> str:
        return self.value


class Mistake(enum.IntEnum):
    """Why a text is no sentence. Its place is a byte of the text, from 0."""

    BAD_CHARACTER = 1
    UNEXPECTED = 2
    UNKNOWN_NAME = 3
    WRONG_DOMAIN = 4
    TOO_DEEP = 5
    WRONG_COLUMNS = 6


_MISTAKES = {
    Mistake.BAD_CHARACTER: "no word and no sign begins with this character",
    Mistake.UNEXPECTED: "this can't stand here",
    Mistake.UNKNOWN_NAME: "no relation, domain, constant or variable has this name here",
    Mistake.WRONG_DOMAIN: "this is of another domain than is needed here",
    Mistake.TOO_DEEP: "this is nested too deeply: at most 8 quantifiers, and 64 of (, not, -> and quantifiers",
    Mistake.WRONG_COLUMNS: "the relation has another number of columns",
}
_SHAPES = {
    1: "the sentence doesn't begin with as many `exists` as are to be listed",
    2: f"there are more than {INSTANCE_LIMIT} instances",
    3: "an instance is too long, or nested too deeply",
}


class Again(enum.Enum):
    """Whether the same question may get another reply when it is asked again."""

    NEVER = "asking the same again doesn't help"
    LATER = "asking again later may help"
    LOGIN = "asking again helps after a login that holds"
    OPERATOR = "asking again helps only after the operator has looked at it"


class CqeError(Exception):
    """Anything that goes wrong in this module."""


class NotSent(CqeError, ValueError):
    """It can't be sent as one line of the protocol; nothing was. `place` is that of the byte that can't be sent."""

    def __init__(self, message: str, place: int | None = None) -> None:
        super().__init__(message)
        self.place = place


class CannotConnect(CqeError):
    """No connection could be made; nothing was asked."""


class ConnectionLost(CqeError):
    """The connection ended before the reply came. A question may have been answered: the module says what to do."""


class ReplyTimeout(ConnectionLost):
    """No reply came in time: the search is long, or every worker of the server has another session."""


class ProtocolError(CqeError):
    """What came is no reply to what was asked: it isn't a server of this protocol, or something stands in between."""


class Refusal(CqeError):
    """An `error N` of the server. Only `JournalFailed` may have added something to the history."""

    code: ClassVar[int]
    words: ClassVar[str]
    again: ClassVar[Again] = Again.NEVER

    def __init__(self, line: str | None = None) -> None:
        super().__init__(self.words)
        self.line = f"error {self.code}" if line is None else line


class NotASentence(Refusal):
    """The text is no sentence: `mistake` at the byte `place`, which is the length of the text at its end."""

    code = 20
    words = "the text isn't a sentence of the schema"

    def __init__(self, mistake: Mistake, place: int, text: str) -> None:
        super().__init__(f"error 20 {mistake.value} {place}")
        self.mistake = mistake
        self.place = place
        self.text = text

    def __str__(self) -> str:
        at_end = self.mistake is Mistake.UNEXPECTED and self.place == len(self.text)
        return "something is missing at the end" if at_end else _MISTAKES[self.mistake]


class TooLarge(Refusal):
    code = 21
    words = "the question is too large, alone or together with what you were told; a smaller one may be answered"


class HistoryFull(Refusal):
    code = 22
    words = "your history is full"


class NoSuchUser(Refusal):
    """Of a batch alone; a session says `NotLoggedIn`."""

    code = 23
    words = "no user has this name"
    again = Again.OPERATOR


class NotAdmitted(Refusal):
    code = 24
    words = "you aren't admitted: by the policy you get no answer"
    again = Again.OPERATOR


class NotLoggedIn(Refusal):
    code = 25
    words = "nobody is logged in, or the name and the pass phrase don't fit"
    again = Again.LOGIN


class UnknownLine(Refusal):
    code = 26
    words = "the server doesn't know such a line"


class ListUnknown(UnknownLine):
    """The server's protocol has no `list`."""

    words = "this server can't list: ask for each constant instead"


class SecretsFull(Refusal):
    """Of an operator's line in a batch alone."""

    code = 27
    words = "the user has 16 secrets, and no more fit"


class CannotList(Refusal):
    """The sentence can't be listed so; `shape` says why."""

    code = 28
    words = "the sentence can't be listed so"

    def __init__(self, shape: int) -> None:
        super().__init__(f"error 28 {shape}")
        self.shape = shape

    def __str__(self) -> str:
        return _SHAPES[self.shape]


class JournalFailed(Refusal):
    """The answer may be in the journal at the next start; until then each question of the user is answered so."""

    code = 40
    words = "a write to your journal failed"
    again = Again.OPERATOR


class JournalRefused(Refusal):
    code = 41
    words = "your journal is refused"
    again = Again.OPERATOR


class OutOfMemory(Refusal):
    code = 50
    words = "the server has no memory for this question now"
    again = Again.LATER


class OtherRefusal(Refusal):
    """A number that this client doesn't know, of a later server; it stands in `line`."""

    code = 0
    words = "the server answers with a number that this client doesn't know"


_PLAIN = {
    refusal.code: refusal
    for refusal in (TooLarge, HistoryFull, NoSuchUser, NotAdmitted, NotLoggedIn, UnknownLine, SecretsFull,
                    JournalFailed, JournalRefused, OutOfMemory)
}


def refusal_of(line: str, text: str = "") -> Refusal | None:
    """The refusal that a reply line to this text is, or None where it is none."""
    word, *numbers = line.split(" ")
    if word != "error" or not numbers or not all(map(_NUMBER.fullmatch, numbers)):
        return None
    match [int(number) for number in numbers]:
        case [20, kind, place]:
            return NotASentence(Mistake(kind), place, text) if kind in _MISTAKES and place <= len(text) else None
        case [28, shape]:
            return CannotList(shape) if shape in _SHAPES else None
        case [code]:
            return _PLAIN[code]() if code in _PLAIN else OtherRefusal(line)
        case _:
            return OtherRefusal(line)


def answer_of(line: str, text: str = "") -> Reply | Refusal:
    """What a reply line says to the question of this text."""
    if line in {reply.value for reply in Reply}:
        return Reply(line)
    refusal = refusal_of(line, text)
    if refusal is None:
        raise ProtocolError(f"this is no reply: {line[:80]!r}")
    return refusal


@dataclass(frozen=True)
class Instance:
    """One line of a list: the constants, in the order of the quantifiers, and the reply to this instance.

    The names are empty where the server had no memory for the question itself (`OutOfMemory`).
    """

    names: tuple[str, ...]
    reply: Reply | Refusal


def endpoint_of(address: str) -> tuple[str, int]:
    """Host and port of an address as 127.0.0.1:7007, [::1]:7007 or ward.example:7007."""
    host, colon, port = address.rpartition(":")
    bracketed = host.startswith("[") and host.endswith("]")
    if bracketed:
        host = host[1:-1]
    is_host = bool(colon and host) and (":" in host) == bracketed
    if not is_host or not _NUMBER.fullmatch(port) or not 1 <= int(port) <= 65535:
        raise NotSent(f"not an address, as 127.0.0.1:7007 or [::1]:7007: {address}")
    return host, int(port)


def connect(address: str, *, connect_timeout: float = 10.0, reply_timeout: float = 120.0,
            tls: ssl.SSLContext | None = None) -> Session:
    """A session with nobody logged in. Times are in seconds; a reply has to be whole within its time.

    With a context the connection is TLS: for a server behind a front, whose certificate the context checks.
    """
    host, port = endpoint_of(address)
    try:
        connection = socket.create_connection((host, port), connect_timeout)
    except OSError as error:
        raise CannotConnect(f"no connection to {address}: {error}") from error
    if tls is None:
        return Session(connection, reply_timeout)
    try:
        return Session(tls.wrap_socket(connection, server_hostname=host), reply_timeout)
    except OSError as error:
        connection.close()
        raise CannotConnect(f"no TLS with {address}: {error}") from error


class Session:
    """One connection, from `connect`. `with` ends it by `quit`, or closes it where something was raised."""

    def __init__(self, connection: socket.socket, reply_timeout: float) -> None:
        self._connection = connection
        self._reply_timeout = reply_timeout
        self._unread = b""
        self._is_open = True
        self.user: str | None = None  # who is logged in

    def login(self, name: str, phrase: str) -> None:
        """Logs in, once in a session. `NotLoggedIn` says that the name and the phrase don't fit; try again then."""
        if self.user is not None:
            raise NotSent(f"{self.user} is logged in already: a session has one user")
        if not _NAME.fullmatch(name) or name in _KEYWORDS:
            raise NotSent("a user's name is a letter and at most 31 letters, digits and _, and no keyword")
        _check(phrase, "a pass phrase")
        if not 1 <= len(phrase) <= PHRASE_LIMIT:
            raise NotSent(f"a pass phrase has 1 to {PHRASE_LIMIT} characters")
        with self._closing_at_failure():
            self._send(f"login {name} {phrase}")
            line = self._read_line()
            refusal = refusal_of(line)
            if line != "welcome" and refusal is None:
                raise ProtocolError(f"this is no reply to a login: {line[:80]!r}")
        if refusal is not None:
            raise refusal
        self.user = name

    def ask(self, text: str) -> Reply:
        """The reply to the question whether this sentence holds. An `error N` is raised as its `Refusal`."""
        line = _request(f"ask {text}", text)
        with self._closing_at_failure():
            self._send(line)
            answer = answer_of(self._read_line(), text)
        if isinstance(answer, Refusal):
            raise answer
        return answer

    def list(self, count: int, text: str) -> tuple[Instance, ...]:
        """The replies to all instances of the first 1 to 4 quantifiers of a sentence that begins with `exists`.

        Each instance is a question of its own, and has an entry of its own in the history; its refusal is its reply.
        A list that is refused as a whole raises: `NotASentence`, `CannotList`, `NotLoggedIn`, `OutOfMemory`, and
        `ListUnknown` of a server whose protocol has no lists.
        """
        if not 1 <= count <= 4:
            raise NotSent("a list opens 1 to 4 quantifiers")
        line = _request(f"list {count} {text}", text)
        with self._closing_at_failure():
            self._send(line)
            answer = self._read_list(count, text)
        if isinstance(answer, Refusal):
            raise answer
        return answer

    def quit(self) -> None:
        """Says goodbye and closes."""
        with self._closing_at_failure():
            self._send("quit")
            line = self._read_line()
            if line != "bye":
                raise ProtocolError(f"this is no reply to quit: {line[:80]!r}")
        self.close()

    def close(self) -> None:
        """Closes the connection, without a word. It may be called again."""
        self._is_open = False
        self._connection.close()

    @property
    def is_open(self) -> bool:
        """Whether it can still be asked: nothing failed and nobody closed it."""
        return self._is_open

    def __enter__(self) -> Session:
        return self

    def __exit__(self, kind: type[BaseException] | None, error: BaseException | None,
                 trace: TracebackType | None) -> None:
        if kind is None and self._is_open:
            with contextlib.suppress(ConnectionLost, ProtocolError):
                self.quit()
        self.close()

    @contextlib.contextmanager
    def _closing_at_failure(self) -> Iterator[None]:
        """Whatever ends an exchange before its reply, an interrupt too, ends the session: a late reply is nobody's."""
        try:
            yield
        except BaseException:
            self.close()
            raise

    def _send(self, line: str) -> None:
        if not self._is_open:
            raise NotSent("the session is over: connect again")
        if self._unread:
            raise ProtocolError(f"the server wrote what nobody asked for: {self._unread[:80]!r}")
        self._write(line)

    def _write(self, line: str) -> None:
        try:
            self._connection.settimeout(self._reply_timeout)
            self._connection.sendall(line.encode("ascii") + b"\n")
        except OSError as error:
            raise ConnectionLost(f"the connection was lost while a line was sent: {error}") from error

    def _read_line(self) -> str:
        deadline = time.monotonic() + self._reply_timeout
        while b"\n" not in self._unread:
            if len(self._unread) > LINE_LIMIT:
                raise ProtocolError("a line without an end")
            self._unread += self._receive(deadline - time.monotonic())
        line, _, self._unread = self._unread.partition(b"\n")
        try:
            return line.decode("ascii")
        except UnicodeDecodeError:
            raise ProtocolError(f"this is no reply: {line[:80]!r}") from None

    def _receive(self, seconds: float) -> bytes:
        try:
            if seconds <= 0:
                raise TimeoutError
            self._connection.settimeout(seconds)
            piece = self._connection.recv(LINE_LIMIT)
        except TimeoutError:
            raise ReplyTimeout(f"no reply within {self._reply_timeout:g} seconds") from None
        except OSError as error:
            raise ConnectionLost(f"the connection was lost before the reply: {error}") from error
        if not piece:
            raise ConnectionLost("the server closed the connection before the reply")
        return piece

    def _read_list(self, count: int, text: str) -> tuple[Instance, ...] | Refusal:
        """All lines of a list's reply.

        A first line `error 50` is the whole reply, or stands for the first instance. So an empty line is asked behind
        it, which is always answered `error 26`: that stands at once, or behind the other instances and `done`.
        """
        instances: list[Instance] = []
        is_probed = False
        while len(instances) <= INSTANCE_LIMIT:
            line = self._read_line()
            if done := _DONE.fullmatch(line):
                if int(done[1]) != len(instances) or is_probed and self._read_line() != "error 26":
                    raise ProtocolError("the list's end doesn't fit its lines")
                return tuple(instances)
            refusal = refusal_of(line, text)
            if refusal is None:
                instances.append(_instance(line, count, text))
            elif isinstance(refusal, OutOfMemory):
                if not instances:
                    self._write("")
                    is_probed = True
                instances.append(Instance((), refusal))
            elif not instances:
                return ListUnknown() if isinstance(refusal, UnknownLine) else refusal
            elif is_probed and len(instances) == 1 and isinstance(refusal, UnknownLine):
                return OutOfMemory()
            else:
                raise ProtocolError(f"this is no line of a list: {line[:80]!r}")
        raise ProtocolError("a list without an end")


def _instance(line: str, count: int, text: str) -> Instance:
    *names, reply = line.split(" ", count)
    if len(names) != count or not all(map(_NAME.fullmatch, names)):
        raise ProtocolError(f"this is no line of a list: {line[:80]!r}")
    return Instance(tuple(names), answer_of(reply, text))


def _check(text: str, what: str) -> None:
    """Refuses what the server would take for no request, or for two."""
    if found := _NOT_IN_A_LINE.search(text):
        character = "a line feed" if found[0] == "\n" else repr(found[0])
        raise NotSent(f"{what} can't hold {character}: only tabs and the characters from the blank to the tilde",
                      found.start())


def _request(line: str, text: str) -> str:
    _check(text, "a question")
    if len(line) > LINE_LIMIT:
        raise NotSent(f"the line has {len(line)} bytes, and at most {LINE_LIMIT} can be sent")
    return line
