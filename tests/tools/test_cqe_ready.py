"""cqe-ready before a server that answers, that is silent, and that isn't there."""

import os
import shutil
import socket
import subprocess
import time
import unittest

import program
from fake_server import Line, answering, serving

READY = program.TOP / "tools/cqe-ready"


@unittest.skipUnless(shutil.which("bash"), "needs bash")
class Ready(unittest.TestCase):
    def status(self, *words: str, **environment: str) -> int:
        ran = subprocess.run([READY, *words], env={**os.environ, **environment}, stdin=subprocess.DEVNULL,
                             capture_output=True, text=True, timeout=60)
        self.assertEqual((ran.stdout, ran.stderr == ""), ("", ran.returncode == 0))
        return ran.returncode

    def test_a_server_that_answers(self) -> None:
        heard: list[str] = []
        with serving(answering("error 25", heard=heard)) as address:
            self.assertEqual(self.status(address, "30", MAINPID=str(os.getpid())), 0)
        self.assertEqual(heard, ["login ready ready"])

    def test_a_server_that_closes_at_first(self) -> None:
        # Many, since only some of them close before the login is written.
        with serving(*[Line.close] * 10, answering("error 25")) as address:
            self.assertEqual(self.status(address, "30"), 0)

    def test_a_server_that_is_silent(self) -> None:
        with socket.create_server(("127.0.0.1", 0)) as listener:
            self.assertEqual(self.status("127.0.0.1:%d" % listener.getsockname()[1], "1"), 1)

    def test_nobody_listens(self) -> None:
        with socket.create_server(("127.0.0.1", 0)) as listener:
            address = "127.0.0.1:%d" % listener.getsockname()[1]
        self.assertEqual(self.status(address, "1"), 1)

    def test_a_process_that_has_ended(self) -> None:
        ended = subprocess.Popen(["true"])
        ended.wait()
        begun = time.monotonic()
        self.assertEqual(self.status("127.0.0.1:9", "50", MAINPID=str(ended.pid)), 1)
        self.assertLess(time.monotonic() - begun, 40)

    def test_its_own_words(self) -> None:
        for words in ([], ["127.0.0.1"], ["127.0.0.1:"], ["::1:7007"], [":7007"], ["127.0.0.1:7007", "soon"],
                      ["127.0.0.1:7007", ""], ["127.0.0.1:7007", "1", "2"], ["--help"]):
            with self.subTest(words):
                self.assertEqual(self.status(*words), 2)


if __name__ == "__main__":
    unittest.main()
