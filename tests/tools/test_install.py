"""make install and make uninstall, the Debian package, and the completion for bash."""

import os
import pathlib
import re
import shutil
import subprocess
import sys
import tempfile
import unittest

import program

TOP = pathlib.Path(__file__).resolve().parents[2]
PREFIX = "/opt/cqe here & there"  # neither a blank nor what sed knows may do harm
CLEAN = {"PATH": os.environ["PATH"], "PYTHONDONTWRITEBYTECODE": "1"}


def files_below(place: pathlib.Path) -> set[str]:
    return {str(path.relative_to(place)) for path in place.rglob("*") if path.is_symlink() or not path.is_dir()}


class Temporary(unittest.TestCase):
    def setUp(self) -> None:
        self.place = pathlib.Path(self.enterContext(tempfile.TemporaryDirectory()))
        self.program = self.place / "program"
        self.program.write_text('#!/bin/sh\necho "stand-in $*"\n')

    def run_at(self, *words: object, status: int = 0, **more: object) -> subprocess.CompletedProcess[str]:
        done = subprocess.run([str(word) for word in words], cwd=self.place, env=CLEAN, capture_output=True, text=True,
                              timeout=60, **more)
        self.assertEqual(done.returncode, status, done.stderr)
        return done


@unittest.skipUnless(shutil.which("make"), "needs make")
class Installed(Temporary):
    def make(self, goal: str, *settings: str, status: int = 0) -> str:
        words = ["make", "-s", "-C", TOP, goal, f"PREFIX={PREFIX}", f"DESTDIR={self.place}/tree",
                 f"PROGRAM={self.program}", *settings]
        return self.run_at(*words, status=status).stderr

    @property
    def root(self) -> pathlib.Path:
        return self.place / f"tree{PREFIX}"

    def test_each_file_is_at_its_place_and_in_the_list(self) -> None:
        self.make("install")
        commands = {"bin/cqe", "bin/cqe-ask"} | {f"bin/{tool.name}" for tool in TOP.glob("tools/cqe-*")}
        pages = {f"share/man/man{page.suffix[1]}/{page.name}" for page in TOP.glob("docs/*.[17]")}
        modules = {f"share/cqe/tools/cqe_tools/{module.name}" for module in TOP.glob("tools/cqe_tools/*.[ph]*")}
        pictures = {f"share/doc/cqe/pictures/{picture.name}" for picture in TOP.glob("docs/pictures/*")}
        units = {f"lib/systemd/system/{unit.name}" for unit in TOP.glob("contrib/systemd/*.service")}
        examples = {f"share/doc/cqe/examples/{example.name}" for example in TOP.glob("examples/*")}
        found = files_below(self.root)
        self.assertLessEqual(commands | pages | modules | pictures | units | examples, found)
        self.assertLessEqual({"share/man/man1/cqe-ask.1", "share/cqe/tools/cqe_tools/lab.html"}, found)
        self.assertLessEqual({f"share/bash-completion/completions/{command.removeprefix('bin/')}" for command in commands},
                             found)
        self.assertEqual({path for path in found if path.startswith("bin/")}, commands)
        listed = (self.root / "share/cqe/installed-files").read_text().splitlines()
        self.assertEqual(sorted(listed), sorted(found - {"share/cqe/installed-files"}))

    def test_commands_start_at_their_place(self) -> None:
        self.make("install")
        self.assertEqual(self.run_at(self.root / "bin/cqe", "case").stdout, "stand-in case\n")
        self.assertIn("usage: cqe-ask", self.run_at(self.root / "bin/cqe-ask", "--help").stdout)
        for tool in TOP.glob("tools/cqe-*"):
            with self.subTest(tool.name):
                if "python" not in tool.read_text().partition("\n")[0]:
                    self.run_at("bash", "-n", self.root / "bin" / tool.name)
                    continue
                words = ["--help"] if tool.name == "cqe-lab" else []  # which else serves until a signal comes
                done = subprocess.run([self.root / "bin" / tool.name, *words], cwd=self.place, env=CLEAN,
                                      capture_output=True, stdin=subprocess.DEVNULL, text=True, timeout=60)
                self.assertNotIn("Traceback", done.stderr)
                self.assertIn(done.returncode, {0, 2})  # without words: nothing to do, or how it is called

    def test_the_page_finds_its_examples(self) -> None:
        self.make("install")
        words = [sys.executable, "-c", "from cqe_tools import lab_examples; print(*lab_examples.found())"]
        done = subprocess.run(words, cwd=self.root / "share/cqe/tools", env=CLEAN, capture_output=True, text=True)
        self.assertEqual(done.stdout, "ward clinic registry hospital statistics register\n")

    def test_anybody_can_read_it(self) -> None:
        self.make("install")
        for path in self.root.rglob("*"):
            mode = path.stat().st_mode & 0o777
            is_run = path.is_dir() or path.parent.name == "bin" or os.access(path, os.X_OK)
            self.assertEqual(oct(mode), oct(0o755 if is_run else 0o644), path)

    def test_pages_and_units_name_the_prefix(self) -> None:
        self.make("install")
        for place, sources in [("lib/systemd/system", "contrib/systemd/*.*"), ("share/man/man1", "docs/*.1")]:
            for source in TOP.glob(sources):
                self.assertEqual((self.root / place / source.name).read_text(),
                                 source.read_text().replace("/usr/local", PREFIX))

    def test_documents_name_each_other_as_they_lie(self) -> None:
        self.make("install")
        place = self.root / "share/doc/cqe"
        for document in place.glob("*.md"):
            text = document.read_text()
            named = re.findall(r"(?<![\w/.])(?:docs/)?(?:pictures/\w+\.png|[A-Z_]{6,}\.md)\b", text)
            self.assertEqual([name for name in named if not (place / name).is_file()], [], document.name)

    def test_uninstall_takes_away_its_own_files_alone(self) -> None:
        self.make("install")
        other = self.root / "bin" / "other"
        other.write_text("")
        (self.root / "share/cqe/client/__pycache__").mkdir()
        (self.root / "share/cqe/client/__pycache__/cqe.pyc").write_text("")
        self.make("uninstall")
        self.assertEqual(files_below(self.root), {"bin/other"})
        self.assertFalse((self.root / "share/cqe").exists())
        self.assertIn("nothing was installed", self.make("uninstall", status=2))

    def test_a_second_install_drops_what_is_gone(self) -> None:
        self.make("install")
        before = files_below(self.root)
        (self.root / "bin/cqe-gone").write_text("")
        with (self.root / "share/cqe/installed-files").open("a") as listed:
            listed.write("bin/cqe-gone\n")
        self.make("install")
        self.assertEqual(files_below(self.root), before)

    def test_without_a_program_nothing_is_installed(self) -> None:
        self.assertIn("there is no program", self.make("install", "PROGRAM=nothing", status=2))
        self.assertEqual(files_below(self.root), set())

    @program.needed
    def test_the_program_answers_the_installed_example(self) -> None:
        self.make("install", f"PROGRAM={program.path()}")
        with (self.root / "share/doc/cqe/examples/clinic.case").open() as script:
            done = self.run_at(self.root / "bin/cqe", "case", stdin=script)
        self.assertEqual(done.stdout, "no\nno\nno\n")


@unittest.skipUnless(shutil.which("dpkg-deb") and shutil.which("make"), "needs dpkg-deb and make")
class Package(Temporary):
    def test_the_package_has_what_is_installed(self) -> None:
        words = ["env", f"PROGRAM={self.program}", "VERSION=1.2", TOP / "contrib/debian/build-deb", self.place]
        self.run_at(*words)
        (package,) = self.place.glob("cqe_1.2_*.deb")
        fields = self.run_at("dpkg-deb", "--field", package, "Package", "Version", "Depends").stdout
        self.assertEqual(fields, "Package: cqe\nVersion: 1.2\nDepends: libc6, libgcc-s1\n")
        owners = {line.split()[1] for line in self.run_at("dpkg-deb", "--contents", package).stdout.splitlines()}
        self.assertEqual(owners, {"root/root"})
        self.run_at("dpkg-deb", "--extract", package, "tree")
        self.assertEqual((self.place / "tree").stat().st_mode & 0o777, 0o755)
        self.assertIn("usage: cqe-ask", self.run_at("tree/usr/bin/cqe-ask", "--help").stdout)
        self.assertLessEqual({"usr/bin/cqe", "usr/share/man/man1/cqe-ask.1.gz"}, files_below(self.place / "tree"))


    @unittest.skipUnless(shutil.which("dpkg") and os.geteuid() == 0, "needs dpkg and its rights")
    def test_dpkg_installs_it_and_takes_it_away(self) -> None:
        """Below a root of its own, in which there is nothing else."""
        root = self.place / "root"
        for directory in ("info", "updates"):
            (root / "var/lib/dpkg" / directory).mkdir(parents=True)
        (root / "var/lib/dpkg/status").write_text("")
        dpkg = ["dpkg", f"--root={root}", "--log=/dev/null", "--force-depends", "--force-script-chrootless"]
        for version in ("1.2", "1.3"):  # the second time it is an upgrade
            self.run_at("env", f"PROGRAM={self.program}", f"VERSION={version}", TOP / "contrib/debian/build-deb",
                        self.place)
            (package,) = self.place.glob(f"cqe_{version}_*.deb")
            self.run_at(*dpkg, "--install", package)
        self.assertEqual(self.run_at(*dpkg, "--verify", "cqe").stdout, "")
        found = self.run_at("dpkg-query", f"--admindir={root}/var/lib/dpkg", "--show", "cqe").stdout
        self.assertEqual(found, "cqe\t1.3\n")
        self.assertEqual(self.run_at(root / "usr/bin/cqe", "case").stdout, "stand-in case\n")
        self.assertIn("usage: cqe-ask", self.run_at(root / "usr/bin/cqe-ask", "--help").stdout)
        (root / "usr/share/cqe/client/__pycache__").mkdir()
        (root / "usr/share/cqe/client/__pycache__/cqe.pyc").write_text("")
        self.run_at(*dpkg, "--remove", "cqe")
        self.assertEqual([path for path in files_below(root) if not path.startswith("var/lib/dpkg")], [])


@unittest.skipUnless(shutil.which("bash"), "needs bash")
class Completion(Temporary):
    def completed(self, *words: str) -> list[str]:
        """What is offered for the last of the words; an = is a word of its own, as bash has it."""
        script = ('source "$0"; COMP_WORDS=("$@"); COMP_CWORD=$(($# - 1)); _cqe; '
                  '[[ ${#COMPREPLY[@]} == 0 ]] || printf "%s\\n" "${COMPREPLY[@]}"')
        return self.run_at("bash", "-c", script, TOP / "contrib/completion/cqe.bash", *words).stdout.splitlines()

    def test_commands_and_options_are_those_of_the_formats(self) -> None:
        table = re.findall(r"^\| `(\w+)` \|(.*)\|$", (TOP / "docs/FORMATS.md").read_text().partition("## The words")[2]
                           .partition("## Replies")[0], re.MULTILINE)
        commands = {command: re.findall(r"--\w+", options) for command, options in table}
        self.assertEqual(set(commands), {"case", "init", "batch", "audit", "selfrun", "serve", "migrate", "dossier",
                                         "check", "standby"})
        self.assertEqual(set(self.completed("cqe", "")), set(commands))
        for command, options in commands.items():
            self.assertEqual(set(self.completed("cqe", command, "")), set(options), command)

    def test_a_beginning_is_completed(self) -> None:
        self.assertEqual(self.completed("cqe", "se"), ["selfrun", "serve"])
        self.assertEqual(self.completed("./cqe", "audit", "--j"), ["--journals", "--json"])

    def test_an_option_is_offered_once(self) -> None:
        offered = self.completed("cqe", "init", "--policy", "p", "--facts", "=", "f", "")
        self.assertEqual(offered, ["--journals"])

    def test_values(self) -> None:
        (self.place / "ward.policy").write_text('[[users]]\nname = "nurse"\n[[users]]\n  name="clerk" # the office\n')
        (self.place / "ward journals").mkdir()
        self.assertEqual(self.completed("cqe", "init", "--policy", "ward.p"), ["ward.policy"])
        self.assertEqual(self.completed("cqe", "init", "--policy", "=", "ward.p"), ["ward.policy"])
        self.assertEqual(self.completed("cqe", "init", "--journals", "ward"), ["ward journals"])
        self.assertEqual(self.completed("cqe", "migrate", "--to", "ward"), ["ward journals"])
        self.assertEqual(self.completed("cqe", "audit", "--policy", "ward.policy", "--user", ""), ["nurse", "clerk"])
        self.assertEqual(self.completed("cqe", "audit", "--policy", "=", "ward.policy", "--user", "=", "n"), ["nurse"])
        self.assertEqual(self.completed("cqe", "serve", "--workers", ""), [])
        self.assertEqual(self.completed("cqe", "batch", "--w"), ["--workers"])
        self.assertEqual(self.completed("cqe", "batch", "--standby", ""), ["127.0.0.1:7007"])

    def test_the_options_of_cqe_ask_are_its_own(self) -> None:
        said = self.run_at(TOP / "clients/python/cqe-ask", "--help").stdout
        options = {option for option in re.findall(r"--[a-z-]+", said)}
        self.assertEqual(set(self.completed("cqe-ask", "127.0.0.1", ":", "7007", "nurse", "--")), options)

    def test_the_words_of_cqe_lab(self) -> None:
        for name in ("a.policy", "a.facts"):
            (self.place / name).write_text("")
        self.assertEqual(self.completed("cqe-lab", "a.p"), ["a.policy"])
        self.assertEqual(self.completed("cqe-lab", "a.policy", "a.f"), ["a.facts"])
        self.assertEqual(self.completed("cqe-lab", "a.policy", "a.facts", "a"), [])
        said = self.run_at(TOP / "tools/cqe-lab", "--help").stdout
        self.assertEqual(self.completed("cqe-lab", "--"), sorted(set(re.findall(r"--[a-z-]+", said))))

    def test_the_words_of_cqe_check_and_cqe_ready(self) -> None:
        (self.place / "a.policy").write_text("")
        self.assertEqual(self.completed("cqe-check", "a.p"), ["a.policy"])
        self.assertEqual(self.completed("cqe-check", "--"), ["--help"])
        self.assertEqual(self.completed("cqe-ready", ""), ["127.0.0.1:7007"])
        self.assertEqual(self.completed("cqe-ready", "127.0.0.1:7007", ""), [])

    def test_the_words_of_cqe_lrat(self) -> None:
        (self.place / "a.policy").write_text('[[users]]\nname = "nurse"\n')
        (self.place / "pairs").mkdir()
        said = self.run_at(TOP / "tools/cqe-lrat", "--help").stdout.partition("options:")[2]
        self.assertEqual(set(self.completed("cqe-lrat", "--")), set(re.findall(r"--[a-z]+", said)))
        self.assertEqual(self.completed("cqe-lrat", "--policy", "a.p"), ["a.policy"])
        self.assertEqual(self.completed("cqe-lrat", "--policy", "a.policy", "--user", ""), ["nurse"])
        self.assertEqual(self.completed("cqe-lrat", "--to", "p"), ["pairs"])

    def test_the_words_of_cqe_explain(self) -> None:
        said = self.run_at(TOP / "tools/cqe-explain", "--help").stdout.partition("options:")[2]
        self.assertEqual(set(self.completed("cqe-explain", "--")), set(re.findall(r"--[a-z]+", said)))
        self.assertNotIn("--policy", self.completed("cqe-explain", "--policy", "p", "--"))
        (self.place / "a.batch").write_text("")
        self.assertEqual(self.completed("cqe-explain", "--script", "a."), ["a.batch"])
        self.assertIn("bash", self.completed("cqe-explain", "--", "bas"))

    def test_each_command_has_it(self) -> None:
        commands = ["cqe", "cqe-ask", *sorted(tool.name for tool in TOP.glob("tools/cqe-*"))]
        words = ["bash", "-c", 'source "$0"; complete -p "$@"', TOP / "contrib/completion/cqe.bash", *commands]
        self.assertEqual(self.run_at(*words).stdout, "".join(f"complete -F _cqe {name}\n" for name in commands))


if __name__ == "__main__":
    unittest.main()
