"""What `--install` copies: the launcher with its texts over the program, its manual page and what completes its words."""

import hashlib
import os
import re
import shutil
import subprocess
import tempfile

from shared.case import ProgramTest
from shared.launcher import first_cells, launch, launcher, options, page
from shared.messages import TARGET, identifier, line
from shared.program import ROOT, path, run

COMMANDS = first_cells("commands.txt")
# Words with an input, and of each kind of them what the launcher answers, explains or refuses.
SAID = [
    ([], ""),
    (["help", "serve", "lookup"], ""),
    (["help", "find"], ""),
    (["lookup"], ""),
    (["lookup", "--target", "Z"], ""),
    (["find", "--target", TARGET], ""),
    (["lookup", "--target", TARGET], ""),
    (["lookup", "--target", TARGET, "--family", "6", "--bind", "[::1]:x"], ""),
    (["lookup", "--target", TARGET], TARGET + " [::1]:6881\n"),
    (["check"], line(identifier(1), "127.0.0.1", 9) + "xyz\n"),
    (["check"], line(identifier(1), "127.0.0.1", 9)),
    (["node"], "find 0\n"),
    (["refresh"], "table %s 8 1\nend\n" % TARGET),
    (["refresh"], "row -\n"),
    (["put", "--value", "00"], ""),
    (["mint", "--c1", "32", "--tries", "1", "--seed", "0" * 64], ""),
    (["sim", "--nodes", "50", "--seed", "0" * 64], ""),
    (["--profile", "shut", "check"], ""),
    (["--profile", "open", "--show", "put", "--value", "00"], ""),
    (["--version"], ""),
    (["--version", "--short"], ""),
    (["put", "--value", "00", "--version"], ""),
]


def installed_text(text):
    """A text as it is said where the launcher is found by its name alone."""
    return text.replace("./nolzavirt ", "nolzavirt ")


class InstalledTest(ProgramTest):
    """A test of a folder that is installed once, and that none of them changes."""

    @classmethod
    def setUpClass(cls):
        cls.place = cls.enterClassContext(tempfile.TemporaryDirectory())
        said = launch(["--install", cls.place])
        if said.returncode:
            raise AssertionError("not installed: %s" % said)

    def say(self, *words, text="", **more):
        """What the installed launcher makes of words."""
        return subprocess.run([os.path.join(self.place, "nolzavirt"), *words], input=text, capture_output=True, text=True, **more)


class Install(InstalledTest):
    def test_the_installed_program_has_its_help_beside_it(self):
        """An installed program that says `usage` to everything, and nothing that says more."""
        commands = sorted({command for _, _, of in options() for command in of})
        self.assertEnds(run([os.path.join(self.place, "nolzavirt"), "check"], ""), 0, "passed 0 of 0\n")
        for part in [*commands, "network", *first_cells("statuses.txt")]:
            with self.subTest(part):
                said = self.say("help", part)
                self.assertEqual(said.returncode, 0, said)
                self.assertTrue(said.stdout, said)
                self.assertEqual(said.stdout, installed_text(launch(["help", part]).stdout), "the help is another")
                if part in commands:
                    for words in ([part, "--help"], [part, "--k", "8", "-h"]):
                        self.assertEqual(self.say(*words).stdout, said.stdout, "%r helps with something else" % words)
        said = self.say()
        self.assertEqual(said.returncode, 0, said)
        self.assertEqual([one for one in commands if "  %s " % one not in said.stdout], [], "commands that it doesn't name")
        self.assertEqual(self.say("help", "find").returncode, 2, "it has help on 'find'")

    def test_it_says_the_same_installed_or_not(self):
        """An installed launcher with another text, word, status or bad line than that of the repository."""
        for words, text in SAID[1:]:
            with self.subTest(" ".join(words), text=text):
                here, there = launch(words, text), self.say(*words, text=text)
                self.assertEqual(there.returncode, here.returncode, there)
                self.assertEqual(there.stdout, installed_text(here.stdout))
                wanted = installed_text(here.stderr).replace("--unproved --build --install --options test ", "")
                self.assertEqual(there.stderr, wanted)

    def test_words_of_the_repository_are_refused(self):
        """An installed launcher that looks for a repository, or takes a word of it for one of the program."""
        for words in (["--build"], ["--install", "x"], ["--options"], ["test"], ["--unproved", "sim"]):
            with self.subTest(" ".join(words)):
                said = self.say(*words)
                self.assertEqual((said.returncode, said.stdout), (2, ""), said)
                self.assertSays(said, "'%s' is a word of the repository" % words[0])

    def test_an_older_help_is_taken_away(self):
        """A help of another version that an install leaves there, and a file or a word of this one's that it lacks."""
        folder = self.folder()
        with open(os.path.join(folder, "nolzavirt-help"), "w") as file:
            file.write("old\n")
        shutil.copy(self.program, os.path.join(folder, "nolzavirt"))
        said = launch(["--install", folder])
        self.assertEqual((said.returncode, said.stdout), (0, ""), said)
        wanted = ["nolzavirt", "nolzavirt-contacts", "nolzavirt-files", "nolzavirt-keep"]
        self.assertEqual(sorted(os.listdir(folder)), wanted)
        left = [name for _, _, files in os.walk(folder) for name in files if name.startswith(".new")]
        self.assertEqual(left, [], "files that are left")

    def test_what_cannot_be_written_is_said(self):
        """An install that ends well, or with another status, where it couldn't write."""
        file = os.path.join(self.folder(), "file")
        open(file, "w").close()
        said = launch(["--install", file])
        self.assertEqual((said.returncode, said.stdout), (73, ""), said)
        self.assertSays(said, "can't write into " + file)


class Places(ProgramTest):
    """A folder that was installed, and then moved."""

    def setUp(self):
        first = self.folder()
        self.assertEqual(launch(["--install", os.path.join(first, "a b")]).returncode, 0, "not installed")
        self.place = os.path.join(self.folder(), "moved here")
        shutil.move(os.path.join(first, "a b"), self.place)
        self.links, self.elsewhere = self.folder(), self.folder()
        os.symlink(os.path.join(self.place, "nolzavirt"), os.path.join(self.links, "nolzavirt"))
        os.symlink(os.path.join(self.links, "nolzavirt"), os.path.join(self.links, "second"))
        os.symlink(self.place, os.path.join(self.links, "folder"))
        os.symlink(os.path.relpath(self.place, self.elsewhere), os.path.join(self.elsewhere, "relative"))

    def test_it_runs_where_it_was_moved_and_by_links(self):
        """A launcher that finds its program or its texts only in the folder, by the path or from the place where it was installed."""
        environment = {**os.environ, "PATH": self.links + ":" + os.environ["PATH"]}
        for words, where in (
            ([os.path.join(self.place, "nolzavirt")], "/"),
            (["./nolzavirt"], self.place),
            (["sh", "nolzavirt"], self.place),
            (["bash", "--posix", os.path.join(self.place, "nolzavirt")], self.elsewhere),
            ([os.path.join(self.links, "nolzavirt")], self.elsewhere),
            ([os.path.join(self.links, "second")], "/"),
            ([os.path.join(self.links, "folder", "nolzavirt")], self.elsewhere),
            ([os.path.join("relative", "nolzavirt")], self.elsewhere),
            (["nolzavirt"], self.elsewhere),
        ):
            with self.subTest(" ".join(words).replace(self.place, "PLACE").replace(self.links, "LINKS")):
                options = {"cwd": where, "env": environment, "capture_output": True, "text": True}
                said = subprocess.run([*words, "check"], input="xyz\n", **options)
                self.assertEqual((said.returncode, said.stdout), (3, "bad line 1\n"), said)
                self.assertSays(said, "40 hex digits")
                said = subprocess.run([*words, "help", "8"], **options)
                self.assertEqual(said.stdout[:12], "8: no seeds:", said)

    def test_a_program_that_is_gone_is_said(self):
        """A folder without its program, or without its texts, that ends as if a command had."""
        launcher = os.path.join(self.place, "nolzavirt")
        os.remove(os.path.join(self.place, "nolzavirt-files", "nolzavirt"))
        said = subprocess.run([launcher, "check"], input="", capture_output=True, text=True)
        self.assertEqual((said.returncode, said.stdout), (70, ""), said)
        self.assertSays(said, "nolzavirt-files/nolzavirt is missing")
        shutil.rmtree(os.path.join(self.place, "nolzavirt-files"))
        said = subprocess.run([launcher, "check"], input="", capture_output=True, text=True)
        self.assertEqual((said.returncode, said.stdout), (70, ""), said)
        self.assertSays(said, "can't find the texts")


# Stands in for the kit: its build copies the program that is tested.
KIT = """#!/usr/bin/env python3
import os, shutil, sys
if __name__ == "__main__" and sys.argv[1] == "version":
    print("a kit for tests")
elif __name__ == "__main__":
    os.makedirs("out", exist_ok=True)
    shutil.copy(os.environ["PROGRAM"], "out/node_main")
    print("rt: running node_main", file=sys.stderr)
"""


class Version(ProgramTest):
    def test_the_version_is_that_of_the_changes(self):
        """A version that the launcher prints and CHANGELOG doesn't begin with."""
        newest = re.search(r"^## (\S+?),? ", page("CHANGELOG.md"), re.M)[1]
        said = launch(["--version"])
        self.assertEqual((said.returncode, said.stdout, said.stderr), (0, "nolzavirt %s\n" % newest, ""), said)

    def test_a_build_notes_what_the_program_is_of(self):
        """A program of which nobody can say from which commit and by which kit it was built; another one in its place that is taken
        for it."""
        home = self.enterContext(launcher())
        built = os.path.join(home, "crates/node_main/out")
        shutil.rmtree(built)
        with open(os.path.join(home, "rt"), "w") as file:
            file.write(KIT)
        os.chmod(file.name, 0o755)
        git = ["git", "-C", home, "-c", "user.name=a", "-c", "user.email=a@b.invalid"]
        shutil.copy(os.path.join(ROOT, ".gitignore"), home)
        for words in (["init", "-q"], ["add", "crates.txt"], ["commit", "-q", "-m", "A commit"]):
            subprocess.run([*git, *words], check=True)
        commit = subprocess.run([*git, "rev-parse", "HEAD"], capture_output=True, text=True).stdout.strip()
        environment = {**os.environ, "PATH": home + ":" + os.environ["PATH"], "PROGRAM": path()}
        say = lambda *words: subprocess.run(list(words), capture_output=True, text=True, env=environment)
        said = say(os.path.join(home, "nolzavirt"), "--version", "--long")
        self.assertEqual(said.returncode, 70, said)
        said = say(os.path.join(home, "nolzavirt"), "--build")
        self.assertEqual((said.returncode, said.stdout), (0, ""), said)
        place = self.folder()
        self.assertEqual(say(os.path.join(home, "nolzavirt"), "--install", place).returncode, 0, "not installed")
        with open(path(), "rb") as file:
            digest = hashlib.sha256(file.read()).hexdigest()
        wanted = "nolzavirt %s\ncommit %s\nkit a kit for tests\nsha256 %s\n" % (page("share/version").strip(), commit, digest)
        for folder in (home, place):
            said = say(os.path.join(folder, "nolzavirt"), "--version", "--long")
            self.assertEqual((said.returncode, said.stdout, said.stderr), (0, wanted, ""), said)
        with open(os.path.join(home, "crates.txt"), "a") as file:
            file.write("# changed\n")
        self.assertEqual(say(os.path.join(home, "nolzavirt"), "--build").returncode, 0, "not built again")
        said = say(os.path.join(home, "nolzavirt"), "--version", "--long")
        self.assertEqual(said.stdout, wanted.replace(commit, commit + " and changes"))
        with open(os.path.join(place, "nolzavirt-files", "nolzavirt"), "ab") as file:
            file.write(b"\n")
        said = say(os.path.join(place, "nolzavirt"), "--version", "--long")
        self.assertEqual((said.returncode, said.stdout), (70, wanted), said)
        self.assertSays(said, "the program isn't the one that was built so")


class Pages(InstalledTest):
    """The manual page, and what completes words."""

    def file(self, *names):
        return os.path.join(self.place, "nolzavirt-files", *names)

    def test_the_manual_page_has_every_word(self):
        """A manual page without a command, an option or a status, or with lines that troff takes for others."""
        with open(self.file("nolzavirt.1")) as file:
            text = file.read()
        for command in COMMANDS:
            at = text.index(".SH %s\n" % command.upper())
            part = text[at : text.index("\n.SH ", at)].replace("\\-", "-")
            wanted = {name for name, _, of in options() if command in of}
            self.assertEqual({name for name in re.findall(r"^\.B (--\S+)$", part, re.M)}, wanted, command)
        statuses = re.findall(r"^\.B (\d+)$", text[text.index(".SH EXIT STATUS") :], re.M)
        self.assertEqual(statuses, ["0", *first_cells("statuses.txt")])
        macros = set(re.findall(r"^[.'].*$", text, re.M))
        others = [one for one in macros if not re.match(r"\.(TH|SH|B) \S|\.(PP|TP|nf|fi|br)$", one)]
        self.assertEqual(others, [], "lines that are macros")
        self.assertNotIn("./nolzavirt", text)
        if shutil.which("groff"):
            said = subprocess.run(["groff", "-man", "-Tascii", "-ww", self.file("nolzavirt.1")], capture_output=True, text=True)
            self.assertEqual((said.returncode, said.stderr), (0, ""))
            self.assertIn("printf '5:hello' | od -An -v -tx1 | tr -d ' \\n'", said.stdout)

    def completed(self, *words):
        """What bash makes of the last word."""
        script = '. "$1"; shift; COMP_WORDS=(nolzavirt "$@"); COMP_CWORD=$#; _nolzavirt_words; echo "${COMPREPLY[*]}"'
        said = subprocess.run(["bash", "-c", script, "bash", self.file("nolzavirt.bash"), *words], capture_output=True, text=True)
        self.assertEqual(said.stderr, "")
        return said.stdout.split()

    def test_words_are_completed(self):
        """A command, an option or a value that isn't offered, or one that the command doesn't take."""
        rows = options()
        self.assertEqual(self.completed(""), [*COMMANDS, "--profile", "--show", "--version", "help"])
        for command in COMMANDS:
            with self.subTest(command):
                wanted = {name for name, _, of in rows if command in of} | {"--help"}
                self.assertEqual(set(self.completed(command, "")), wanted)
                self.assertEqual(set(self.completed("--profile", "open", command, "--")), wanted)
                self.assertEqual(self.completed(command[:-1]), [one for one in COMMANDS if one.startswith(command[:-1])])
        for words, wanted in (
            (["put", "--spread", ""], ["yes", "no"]),
            (["get", "--family", ""], ["4", "6"]),
            (["get", "--key", ""], []),
            (["--profile", ""], ["open"]),
            (["--version", ""], ["--long"]),
            (["help", "s"], ["serve", "sim"]),
            (["help", "13"], ["13", "130"]),
        ):
            with self.subTest(" ".join(words)):
                self.assertEqual(self.completed(*words), wanted)

    def test_zsh_is_handed_what_completes_in_bash(self):
        """A file for zsh that names another file, or a function that isn't there."""
        with open(self.file("zsh", "_nolzavirt")) as file:
            text = file.read()
        self.assertTrue(text.startswith("#compdef nolzavirt\n"))
        self.assertIn("/../nolzavirt.bash", text)
        called = re.search(r"_bash_complete .*-F (\w+)$", text, re.M)[1]
        with open(self.file("nolzavirt.bash")) as file:
            self.assertIn("\n%s() {\n" % called, file.read())
