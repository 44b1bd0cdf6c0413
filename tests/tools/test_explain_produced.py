"""What the program says where something around it fails, produced as a user would, and explained by the wrapper.

The refusals of policies, facts, scripts, sentences and words are produced beside their explanations, in test_explain_*.
"""

import fcntl
import socket
import subprocess
import unittest

import program
from test_explain_policy import FIVE, SIX
from test_explain_run import journal
from told import EXPLAIN, FACTS, POLICY, InDirectory, changed

TRUE = b"true"
LONG = "true" + " " * 600  # a record of it passes the end of a file of 512 bytes
FILES_OF_512_BYTES = "trap '' XFSZ; ulimit -f 1; "  # a further write fails, as on a full disk
FILES_OF_NO_BYTES = "trap '' XFSZ; ulimit -f 0; "


@program.needed
class Produced(InDirectory):
    """Tests with a policy, facts and journals, and with the program under the name cqe."""

    def setUp(self):
        super().setUp()
        (self.directory / "cqe").symlink_to(program.path())
        (self.directory / "j").mkdir()
        self.write(POLICY, FACTS)

    def write(self, policy, facts):
        self.policy, self.facts = self.file("p", policy), self.file("f", facts)
        self.files = ["--policy", self.policy, "--facts", self.facts, "--journals", self.directory / "j"]

    def init(self):
        self.assertEqual(program.run("init", *self.files).returncode, 0)

    def around(self, command, *more, given="", before="", redirected=""):
        """The status, the replies and the explanations of a call of the program within a shell."""
        words = [EXPLAIN, "--", "sh", "-c", f'{before}exec "$0" "$@" {redirected}', self.directory / "cqe", command,
                 *(self.files if command != "case" else []), *more]
        ran = subprocess.run([str(word) for word in words], input=given, capture_output=True, text=True, timeout=300)
        return ran.returncode, ran.stdout.splitlines(), ran.stderr

    def assertExplains(self, ran, status, replies, complaint, *words):
        """That a run ended so, said so, and that this was explained in these words."""
        self.assertEqual(ran[:2], (status, replies), ran[2])
        blocks = [block for block in ran[2].split("\n\n") if block.splitlines()[0] == complaint]
        self.assertEqual(len(blocks), 1, ran[2])
        for word in words:
            self.assertIn(word, blocks[0])
        self.assertIn("What to do: ", blocks[0])


@program.with_dossiers
class Dossiers(Produced):
    def test_14_a_changed_dossier(self):
        self.init()
        wrote = program.run("dossier", *self.files, "--user", "eve").stdout.decode()
        self.files = self.files[:4]  # a check takes no journals
        self.assertEqual(self.around("check", "--user", "eve", given=wrote)[:2], (0, ["sound 0"]))
        last = wrote.count("\n")
        ran = self.around("check", "--user", "eve", given=wrote.replace("done 0", "done 1"))
        self.assertExplains(ran, 14, [], f"cqe: dossier 1 {last}", f"Line {last}", "done 1")

    def test_6_a_dossier_that_is_not_read(self):
        self.init()
        self.files = self.files[:4]
        ran = self.around("check", "--user", "eve", redirected="< /")
        self.assertExplains(ran, 6, [], "cqe: read fault", "nothing was checked", "a directory")


class Statuses(Produced):
    def test_6_an_input_that_fails(self):
        ran = self.around("batch", redirected="< /")
        self.assertExplains(ran, 6, [], "cqe: read fault", "nothing was answered", "a directory")

    def test_7_an_output_that_fails(self):
        self.init()
        ran = self.around("batch", given="eve 1 ask true\n", redirected="> /dev/full")
        self.assertExplains(ran, 7, [], "cqe: write fault", "a full disk")

    def test_8_a_file_that_is_not_there(self):
        self.policy.rename(self.directory / "ward.policy")
        self.files[1] = self.directory / "ward.polcy"
        ran = self.around("batch")
        self.assertExplains(ran, 8, [], f"cqe: missing {self.directory}/ward.polcy", "'ward.policy'")

    def test_9_a_directory_that_is_not_there(self):
        self.files[5] = self.directory / "nowhere"
        self.assertExplains(self.around("init"), 9, [], "cqe: shelf fault", "nowhere", "mkdir")

    def test_9_a_journal_that_another_process_has(self):
        self.init()
        with open(self.directory / "j/eve.log", "rb") as held:
            fcntl.flock(held, fcntl.LOCK_EX)
            self.assertExplains(self.around("batch"), 9, [], "cqe: shelf fault", "eve.log", "is locked by the process")

    def test_11_an_append_that_fails(self):
        self.init()
        ran = self.around("batch", before=FILES_OF_512_BYTES, given=f"eve 1 ask {LONG}\n")
        self.assertExplains(ran, 11, ["eve 1 error 40"], "cqe: disk fault", "error 40", "dmesg")
        self.assertExplains(ran, 11, ["eve 1 error 40"], "eve 1 error 40", "the next start")

    def test_11_a_journal_that_cannot_be_made(self):
        ran = self.around("init", before=FILES_OF_NO_BYTES)
        self.assertExplains(ran, 11, [], "cqe: disk fault", "init", "remove")

    def test_9_a_directory_to_move_to_that_is_not_there(self):
        self.file("j/eve.log", journal(POLICY, FACTS, version=b"1"))
        ran = self.around("migrate", "--to", self.directory / "new")
        self.assertExplains(ran, 9, [], "cqe: shelf fault", "new", "mkdir")

    def test_11_a_journal_that_cannot_be_moved(self):
        self.file("j/eve.log", journal(POLICY, FACTS, (1, TRUE), version=b"1"))
        (self.directory / "new").mkdir()
        ran = self.around("migrate", "--to", self.directory / "new", before=FILES_OF_NO_BYTES)
        self.assertExplains(ran, 11, [], "cqe: disk fault", "migrate", "another directory")

    def test_12_no_address(self):
        self.init()
        ran = self.around("serve", "--listen", "127.0.0.1")
        self.assertExplains(ran, 12, [], "cqe: links fault", "has no port", "127.0.0.1:7007")

    def test_12_a_port_in_use(self):
        self.init()
        with socket.create_server(("127.0.0.1", 0)) as taken:
            address = "127.0.0.1:%d" % taken.getsockname()[1]
            ran = self.around("serve", "--listen", address)
        self.assertExplains(ran, 12, [], "cqe: links fault", "in use", address)

    def test_13_too_little_memory(self):
        """The facts file is read whole: 200 megabytes of a hole, which takes no room on the disk."""
        with open(self.facts, "wb") as facts:
            facts.truncate(200_000_000)
        ran = self.around("init", before="ulimit -v 100000; ")
        self.assertExplains(ran, 13, [], "cqe: out of memory", "ulimit -v", "init")


class Causes(Produced):
    """Each cause for which a journal is refused that isn't produced in test_explain_run."""

    def refused(self, data):
        self.file("j/eve.log", data)
        return self.around("batch", given="eve 1 ask true\n")

    def test_disk_fault(self):
        self.init()
        ran = self.around("batch", before=FILES_OF_512_BYTES, given=f"eve 1 ask {LONG}\n* restart\neve 1 ask true\n")
        self.assertExplains(ran, 10, ["eve 1 error 40", "* restarted", "eve 1 error 41"], "cqe: journal eve disk fault",
                            "failed earlier in this run")

    def test_old_version_and_not_empty(self):
        ran = self.refused(journal(POLICY, FACTS, (1, TRUE), version=b"1"))
        self.assertExplains(ran, 10, ["eve 1 error 41"], "cqe: journal eve old version", "cqe migrate")
        (self.directory / "new").mkdir()
        taken = self.file("new/eve.log", "taken")
        ran = self.around("migrate", "--to", self.directory / "new")
        self.assertExplains(ran, 10, [], "cqe: journal eve not empty", str(taken))

    def test_not_admitted(self):
        policy = changed(("hiv(ann) -> hiv(bob)", "hiv(ann)"))
        self.write(policy, FACTS)
        ran = self.refused(journal(policy, FACTS, (1, TRUE)))
        self.assertExplains(ran, 10, ["eve 1 error 41"], "cqe: journal eve not admitted", "cqe-check")

    def test_size_of_a_question(self):
        """Seven quantifiers over five constants: 97,656 nodes."""
        self.write(FIVE, FACTS)
        large = f"exists g: five . {SIX}".encode()
        ran = self.refused(journal(FIVE, FACTS, (1, TRUE), (2, large)))
        self.assertExplains(ran, 10, ["eve 1 error 41"], "cqe: journal eve size 1", "record 1", "exists g: five")

    def test_size_of_a_history(self):
        """256 texts of 4,096 bytes are all that a history has room for; the next one is refused."""
        full = [(1, TRUE + b" " * 4092)] * 256
        ran = self.refused(journal(POLICY, FACTS, *full))
        self.assertExplains(ran, 0, ["eve 1 error 22"], "eve 1 error 22", "1,048,576")
        ran = self.refused(journal(POLICY, FACTS, *full, (1, TRUE)))
        self.assertExplains(ran, 10, ["eve 1 error 41"], "cqe: journal eve size 256", "limit")


class Facts(Produced):
    def test_too_many(self):
        """317 x 317 pairs are more than 100,000; a line that comes again and a comment don't count."""
        names = [f"c{number}" for number in range(317)]
        many = "".join(f"pair({one}, {other})\n" for one in names for other in names)
        quoted = ", ".join(f'"{name}"' for name in names)
        self.write(changed(('ward = ["w1"]', f'ward = ["w1"]\nnumber = [{quoted}]'),
                           ('hiv = ["person"]', 'hiv = ["person"]\npair = ["number", "number"]')),
                   "# all pairs\npair(c0, c0)\n" + many)
        ran = self.around("init")
        self.assertExplains(ran, 4, [], "cqe: facts 2 100003", "100,001th", f"{self.facts}:100003:1")


class Replies(Produced):
    def test_a_question_that_is_too_large(self):
        self.write(FIVE, FACTS)
        self.init()
        ran = self.around("batch", given=f"eve 1 ask exists g: five . {SIX}\n")
        self.assertExplains(ran, 0, ["eve 1 error 21"], "eve 1 error 21", "97,656", "20,000")

    def test_no_memory_for_a_question(self):
        """How much the program takes differs; somewhere between too little to start and enough it starts and lacks it."""
        self.write(FIVE.replace('z = []', 'z = []\npair = ["five", "five"]'), FACTS)
        self.init()
        text = "".join(f"forall {name}: five . " for name in "abcde") + "pair(a, b) or pair(c, d) or pair(e, a)"
        for kilobytes in range(6_000, 64_000, 500):
            ran = self.around("batch", given=f"eve 1 ask {text}\n", before=f"ulimit -v {kilobytes}; ")
            if "eve 1 error 50" in ran[1]:
                self.assertExplains(ran, 0, ["eve 1 error 50"], "eve 1 error 50", "ask again")
                return
        self.fail("no limit of memory gave error 50")


if __name__ == "__main__":
    unittest.main()
