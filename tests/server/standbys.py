"""What the scripts of this folder share on standbys: the copies of a ward's journals, frames, and a standby that can be reached."""

import contextlib
import socket
import subprocess
import time

from serving import check, free_port, records


def with_copies(place):
    """Makes a second directory of journals in a ward, that of its standby, and gives the ward."""
    (place.root / "copies").mkdir()
    done = over_copies(place, "init")
    check(done.returncode == 0, f"init of the copies ended with {done.returncode}: {done.stderr}")
    return place


def words_over_copies(place, command, *more):
    words = place.words(command, *more)
    words[words.index("--journals") + 1] = str(place.root / "copies")
    return words


def over_copies(place, command, *more, script=""):
    """Runs a command over the copies to its end."""
    words = words_over_copies(place, command, *more)
    return subprocess.run(words, input=script, capture_output=True, text=True, check=False)


def copy_of(place, user):
    """The path of a copy."""
    return place.root / "copies" / f"{user}.log"


def copies(place, user):
    """The records of a copy."""
    return records(copy_of(place, user).read_bytes(), place.headers)


def copied_bytes(place):
    return {user: copy_of(place, user).read_bytes() for user in place.users}


def are_copied(place):
    """Whether each journal and its copy are the same bytes."""
    return place.bytes() == copied_bytes(place)


def frame(header, name, number, kind, text):
    """The frame by which a primary tells its standby of a record. The name and the text may be bytes."""
    name, text = (part if isinstance(part, bytes) else part.encode() for part in (name, text))
    fields = number.to_bytes(8, "big") + bytes([kind]) + len(text).to_bytes(2, "big")
    return b"CQEMIRR1" + header[8:72] + bytes([len(name)]) + name + fields + text


class Standby:
    """A standby that can be reached. The look whether it can is a connection too."""

    def __init__(self, place, *more, words=words_over_copies, port=None):
        self.port = port or free_port()
        self.address = f"127.0.0.1:{self.port}"
        self.process = subprocess.Popen(
            words(place, "standby", "--listen", self.address, *more),
            stdin=subprocess.DEVNULL,
            stdout=subprocess.PIPE,
            stderr=subprocess.PIPE,
            text=True,
        )
        for _ in range(3000):
            check(self.process.poll() is None, f"the standby ended with {self.process.returncode}")
            with contextlib.suppress(OSError), socket.create_connection(("127.0.0.1", self.port), timeout=60):
                return
            time.sleep(0.01)
        check(False, "the standby isn't reached")

    def __enter__(self):
        return self

    def __exit__(self, *_why):
        self.end()

    def end(self):
        """Kills it, and waits until it has ended: what came before is in its files then."""
        self.process.kill()
        self.process.communicate(timeout=60)

    def ended(self, seconds=60):
        """Waits until it ends by itself, and gives its status and what it complained of."""
        _written, complaints = self.process.communicate(timeout=seconds)
        return self.process.returncode, complaints

    def connect(self, seconds=60):
        return socket.create_connection(("127.0.0.1", self.port), timeout=seconds)

    def answers(self, *pieces, pause=0.0):
        """What a connection is answered that brings these pieces and then ends: the numbers, or all bytes where they are none."""
        with self.connect() as primary:
            for piece in pieces:
                with contextlib.suppress(ConnectionError):
                    primary.sendall(piece)
                time.sleep(pause)
            with contextlib.suppress(OSError):
                primary.shutdown(socket.SHUT_WR)
            return numbers(everything(primary))


def everything(connection):
    """All that comes up to the end of a connection, or up to its reset."""
    data = b""
    with contextlib.suppress(ConnectionError):
        while part := connection.recv(4096):
            data += part
    return data


def numbers(data):
    """Bytes as numbers of eight bytes, or the bytes themselves where they are none."""
    if len(data) % 8:
        return data
    return [int.from_bytes(data[at : at + 8], "big") for at in range(0, len(data), 8)]
