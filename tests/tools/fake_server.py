"""A server on the loopback address that says what a test wants, also what no server should."""

import contextlib
import pathlib
import shutil
import socket
import ssl
import struct
import subprocess
import threading
import unittest
from collections.abc import Callable, Iterator

PATIENCE = 10  # seconds after which a test's thread gives up


class Line:
    """The server's end of one connection."""

    def __init__(self, connection: socket.socket) -> None:
        self._connection = connection
        self._reader = connection.makefile("rb")

    def heard(self) -> str:
        """The next line, or "" at the end of the input."""
        return self._reader.readline().decode("ascii").removesuffix("\n")

    def says(self, *lines: str) -> None:
        self.writes("".join(line + "\n" for line in lines).encode("ascii"))

    def writes(self, piece: bytes) -> None:
        self._connection.sendall(piece)

    def resets(self) -> None:
        """Ends the connection by a reset, not by an end of its input."""
        self._connection.setsockopt(socket.SOL_SOCKET, socket.SO_LINGER, struct.pack("ii", 1, 0))

    def close(self) -> None:
        self._reader.close()
        self._connection.close()


tls_needed = unittest.skipUnless(shutil.which("openssl"), "needs openssl, which makes a certificate")


def front_in(place: pathlib.Path) -> tuple[ssl.SSLContext, str]:
    """A front of 127.0.0.1 with TLS, and the file with its certificate, which vouches for itself."""
    certificate, key = str(place / "certificate"), str(place / "key")
    words = ["openssl", "req", "-x509", "-newkey", "ec", "-pkeyopt", "ec_paramgen_curve:P-256", "-nodes",
             "-days", "2", "-subj", "/CN=front", "-addext", "subjectAltName=IP:127.0.0.1",
             "-out", certificate, "-keyout", key]
    subprocess.run(words, check=True, capture_output=True, timeout=30)
    front = ssl.SSLContext(ssl.PROTOCOL_TLS_SERVER)
    front.load_cert_chain(certificate, key)
    return front, certificate


Visit = Callable[[Line], object]


def answering(*replies: str, heard: list[str] | None = None) -> Visit:
    """A visit in which each line gets the next of these replies, of which one may have several lines."""

    def visit(line: Line) -> None:
        for reply in replies:
            request = line.heard()
            if heard is not None:
                heard.append(request)
            line.says(reply)

    return visit


@contextlib.contextmanager
def serving(*visits: Visit, tls: ssl.SSLContext | None = None) -> Iterator[str]:
    """The address of a server that takes as many connections as there are visits, one after the other."""
    with socket.create_server(("127.0.0.1", 0)) as listener:
        listener.settimeout(PATIENCE)
        thread = threading.Thread(target=_serve, args=(listener, visits, tls), daemon=True)
        thread.start()
        yield f"127.0.0.1:{listener.getsockname()[1]}"
        thread.join(PATIENCE)


def _serve(listener: socket.socket, visits: tuple[Visit, ...], tls: ssl.SSLContext | None) -> None:
    for visit in visits:
        with contextlib.suppress(OSError):
            connection, _ = listener.accept()
            connection.settimeout(PATIENCE)
            if tls is not None:
                connection = tls.wrap_socket(connection, server_side=True)
            line = Line(connection)
            try:
                visit(line)
            finally:
                line.close()
