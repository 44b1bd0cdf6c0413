"""Sessions with a server of the program on the loopback, for lines that a batch doesn't know."""

import os
import re
import socket
import time
from pathlib import Path

from .checking import Unusable

LOOPBACK = "127.0.0.1"
SECONDS = 60  # in which a server has to listen
LISTENING = re.compile(r" *[0-9]+: 0100007F:([0-9A-F]{4}) [0-9A-F]+:0000 0A (?:[^ ]+ +){5}([0-9]+) ")


def port_of(server):
    """The port at which a server listens that was told to take one: by its sockets, so that nobody else is meant."""
    end = time.monotonic() + SECONDS
    while time.monotonic() < end:
        port = port_among(sockets_of(server.pid))
        if port is not None:
            return port
        if server.poll() is not None:
            raise Unusable(f"the server ended with status {server.returncode}: "
                           f"{server.stderr.read().decode('utf-8', 'replace').strip()}")
        time.sleep(0.01)
    raise Unusable("the server doesn't listen")


def sockets_of(process):
    """The numbers of the sockets of a process."""
    place = Path(f"/proc/{process}/fd")
    found = set()
    try:
        for name in os.listdir(place):
            match = re.fullmatch(r"socket:\[([0-9]+)\]", os.readlink(place / name))
            found |= {match[1]} if match else set()
    except OSError:  # it ends, or is only beginning
        pass
    return found


def port_among(sockets):
    """The port of the loopback at which one of these sockets listens; None where none does."""
    try:
        table = Path("/proc/net/tcp").read_text(encoding="ascii")
    except OSError as error:
        raise Unusable("lists need /proc/net/tcp, which this system hasn't") from error
    ports = [int(match[1], 16) for match in map(LISTENING.match, table.splitlines()) if match and match[2] in sockets]
    return ports[0] if ports else None


def said_to(port, name, phrase, line):
    """What a server says to one line of a user, in a session of its own: a list of lines."""
    try:
        with socket.create_connection((LOOPBACK, port)) as link:
            link.sendall(f"login {name} {phrase}\n".encode("ascii") + line + b"\nquit\n")
            heard = b"".join(iter(lambda: link.recv(65536), b""))
    except OSError as error:
        raise Unusable(f"the session with the server was lost: {error.strerror}") from error
    first, *said = heard.decode("ascii", "replace").splitlines() or [""]
    if first != "welcome" or not said:
        raise Unusable("the server closed the session before its reply")
    return said[:-1] if said[-1] == "bye" else said
