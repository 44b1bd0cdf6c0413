"""Runs the commands of README.md and docs/TUTORIAL.md and compares what they print with what stands behind them.

A block that begins with ```sh is run. The block ```text behind it is what it prints, standard error included; without
one it prints nothing. Each document is one session of a shell in a new directory, which has the examples and the
program. A block that calls a command that isn't there, as a tool that isn't installed, is left out.
"""

import os
import re
import shutil
import signal
import socket
import stat
import subprocess
import sys
import tempfile
import unittest
from dataclasses import dataclass
from pathlib import Path

sys.path.insert(0, str(Path(__file__).resolve().parent))
import program

ROOT = Path(__file__).resolve().parents[2]
PORT = "7007"  # the port in the documents; a free one is taken in its place
OPTIONAL = ("cqe-check", "cqe-ask", "cqe-explain")
SECRECIES = "examples/register"  # a block that names it wants a program that knows secrecies
LONGEST = 1800  # seconds for all commands of a document
END = "== the end of a block =="

# Stands in for nc, whose kinds differ: sends standard input, and prints what comes until the server closes. On a busy
# machine the server may not listen yet.
NC = """#!/usr/bin/env python3
import socket, sys, time
for _ in range(600):
    try:
        link = socket.create_connection((sys.argv[1], int(sys.argv[2])), timeout=300)
        break
    except ConnectionRefusedError:
        time.sleep(0.1)
else:
    sys.exit("nobody listens")
with link:
    link.sendall(sys.stdin.buffer.read())
    while piece := link.recv(4096):
        sys.stdout.buffer.write(piece)
"""


@dataclass
class Block:
    line: int
    commands: str
    printed: str

    def lacks(self, search: str) -> str | None:
        """An optional command that the block calls and that isn't there."""
        called = [name for name in OPTIONAL if re.search(rf"(?<![\w/-]){name}\b", self.commands)]
        return next((name for name in called if not shutil.which(name, path=search)), None)


def blocks_of(text: str) -> list[Block]:
    """The blocks of a document that are run, each with what it prints."""
    fenced = re.compile(r"^```(\w+)\n(.*?)^```$", re.DOTALL | re.MULTILINE)
    found: list[Block] = []
    end_of_last = None
    for match in fenced.finditer(text):
        kind, content = match.groups()
        if kind == "sh":
            found.append(Block(text.count("\n", 0, match.start()) + 1, content, ""))
            end_of_last = match.end()
        elif kind == "text" and end_of_last is not None and not text[end_of_last : match.start()].strip():
            found[-1].printed = content
    return found


def free_port() -> str:
    with socket.socket() as one:
        one.bind(("127.0.0.1", 0))
        return str(one.getsockname()[1])


def make_directory(directory: Path) -> dict[str, str]:
    """Puts the examples and the program there, and returns the environment in which they are found."""
    shutil.copytree(ROOT / "examples", directory / "examples")
    for name in ("tools", "clients"):
        (directory / name).symlink_to(ROOT / name)
    commands = directory / "commands"
    commands.mkdir()
    found = program.path()
    assert found is not None
    (commands / "cqe").symlink_to(found)
    (directory / "cqe").symlink_to(found)
    search = os.pathsep.join([str(commands), str(ROOT / "tools"), str(ROOT / "clients" / "python"), os.environ["PATH"]])
    (commands / "nc").write_text(NC)
    (commands / "nc").chmod(stat.S_IRWXU)
    return {**os.environ, "PATH": search, "CQE": found, "LC_ALL": "C"}


def run(blocks: list[Block], directory: Path, environment: dict[str, str]) -> list[tuple[str, int]]:
    """What each block prints, and the status of its last command."""
    script = "".join(f"{block.commands}printf '%s %d\\n' '{END}' \"$?\"\n" for block in blocks)
    shell = subprocess.Popen(
        ["bash", "-c", script], cwd=directory, env=environment, stdin=subprocess.DEVNULL, stdout=subprocess.PIPE,
        stderr=subprocess.STDOUT, start_new_session=True, text=True,
    )
    try:
        printed, _ = shell.communicate(timeout=LONGEST)
    finally:
        # A server that a block left behind ends with it.
        try:
            os.killpg(shell.pid, signal.SIGKILL)
        except ProcessLookupError:
            pass
    pieces = re.split(rf"^{END} (\d+)\n", printed, flags=re.MULTILINE)
    return [(piece, int(status)) for piece, status in zip(pieces[0::2], pieces[1::2])]


@program.needed
class Documents(unittest.TestCase):
    def check(self, name: str) -> None:
        port = free_port()
        text = (ROOT / name).read_text(encoding="utf-8").replace(PORT, port)
        with tempfile.TemporaryDirectory() as temporary:
            directory = Path(temporary)
            environment = make_directory(directory)
            everything = blocks_of(text)
            self.assertTrue(everything, f"{name} has no commands")
            knows = program.knows_secrecies()
            blocks = [block for block in everything
                      if not block.lacks(environment["PATH"]) and (knows or SECRECIES not in block.commands)]
            ran = run(blocks, directory, environment)
            self.assertEqual(len(ran), len(blocks), f"{name}: the shell ended early")
            for block, (printed, status) in zip(blocks, ran):
                with self.subTest(document=name, line=block.line):
                    self.assertEqual(printed, block.printed)
                    self.assertEqual(status, 0)

    def test_readme(self) -> None:
        self.check("README.md")

    def test_tutorial(self) -> None:
        self.check("docs/TUTORIAL.md")


class Reading(unittest.TestCase):
    def test_blocks(self) -> None:
        text = "a\n```sh\necho x\n```\n\n```text\nx\n```\n```console\nrt ci\n```\n```sh\ntrue\n```\nb\n```text\nno\n```\n"
        self.assertEqual(blocks_of(text), [Block(2, "echo x\n", "x\n"), Block(12, "true\n", "")])

    def test_missing_command(self) -> None:
        block = Block(1, "cqe-check a b\n", "")
        self.assertEqual(block.lacks("/nowhere"), "cqe-check")
        self.assertIsNone(Block(1, "cqe case\n", "").lacks("/nowhere"))


if __name__ == "__main__":
    unittest.main()
