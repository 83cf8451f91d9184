"""`--profile open`: the options that it stands for, of the launcher and of the keeper, and what is given by hand besides."""

import os
import shlex
import subprocess

from shared.keeper import FIRST, KeeperTest
from shared.launcher import launch, launcher, options, page
from shared.messages import TARGET
from shared.program import path, run

from test_pages import steps

# What docs/OPEN_NETWORK recommends for each command among strangers.
RECOMMENDED = {
    "lookup": "--paths 8 --claim asked --per-address 1",
    "peers": "--paths 8 --claim asked --per-address 1 --spread yes",
    "get": "--paths 8 --claim asked --per-address 1",
    "put": "--paths 8 --claim asked --per-address 1 --spread yes",
    "serve": "--per-address 8",
    "node": "--paths 8 --claim asked --per-address 8",
    "table": "",
    "refresh": "",
    "check": "",
    "mint": "",
    "sim": "",
}
NEEDED = {"lookup": ["--target", TARGET], "peers": ["--key", TARGET], "get": ["--key", TARGET], "put": ["--value", "00"]}
# Stands for the program: it says its words.
ECHO = '#!/bin/sh\necho "$*"\n'


def pairs(words):
    """Options with their values, by a text or a list of words."""
    words = shlex.split(words) if isinstance(words, str) else words
    return dict(zip(words[::2], words[1::2]))


class Profile(KeeperTest):
    def show(self, *words):
        """The command that is shown, as words."""
        said = launch(["--profile", "open", "--show", *words])
        self.assertEqual((said.returncode, said.stderr), (0, ""), said)
        self.assertEqual(said.stdout.count("\n"), 1)
        return shlex.split(said.stdout)

    def test_the_profile_has_what_is_recommended(self):
        """An option that is recommended and not given, or one that isn't recommended or that the program refuses; a command that a
        profile leaves out, or one without a text."""
        self.assertEqual(set(RECOMMENDED), {command for _, _, of in options() for command in of}, "the commands")
        for command, wanted in RECOMMENDED.items():
            with self.subTest(command):
                needed = NEEDED.get(command, [])
                words = self.show(command, *needed)
                self.assertEqual(words[: len(needed) + 2], ["./nolzavirt", command, *needed])
                self.assertEqual(pairs(words[len(needed) + 2 :]), pairs(wanted))
                if wanted:
                    ended = run([path(), *words[1:]], "xyz\n")
                    self.assertEqual(ended.status, 12 if command == "put" else 3, ended)

    def test_an_option_by_hand_wins(self):
        """An option of the profile that stands beside the one that is given, or takes its place."""
        for command, given in (
            ("lookup", ["--paths", "2"]),
            ("put", ["--spread", "no", "--per-address", "3"]),
            ("node", ["--own", TARGET, "--per-address", "1", "--paths", "8"]),
            ("serve", ["--per-address", "0"]),
        ):
            with self.subTest(command):
                given = [*NEEDED.get(command, []), *given]
                words = self.show(command, *given)[2:]
                self.assertEqual(words[: len(given)], given)
                self.assertEqual(pairs(words), {**pairs(RECOMMENDED[command]), **pairs(given)})
                self.assertEqual(len(words), 2 * len(pairs(words)), "an option that stands there twice")

    def test_the_program_is_given_them(self):
        """A profile that is shown, and not run; a command that is run although it is only to be shown."""
        with launcher() as home:
            program = os.path.join(home, "crates/node_main/out/node_main")
            os.remove(program)
            with open(program, "w") as file:
                file.write(ECHO)
            os.chmod(program, 0o755)
            open(os.path.join(home, "crates/node_main/out/launcher.stamp"), "w").close()
            words = [os.path.join(home, "nolzavirt"), "--profile", "open"]
            quiet = {"stdin": subprocess.DEVNULL, "capture_output": True, "text": True}
            said = subprocess.run([*words, "get", "--key", TARGET], **quiet)
            self.assertEqual((said.returncode, said.stdout), (0, "get --key %s --paths 8 --claim asked --per-address 1\n" % TARGET), said)
            said = subprocess.run([*words, "--show", "get", "--key", TARGET], **quiet)
            self.assertEqual(said.stdout, "./nolzavirt get --key %s --paths 8 --claim asked --per-address 1\n" % TARGET)
            said = subprocess.run([words[0], "get", "--key", TARGET], **quiet)
            self.assertEqual(said.stdout, "get --key %s\n" % TARGET, "without a profile")

    def test_wrong_words_beside_it_are_named(self):
        """A profile that is none, `--show` alone, or a wrong word of a command that is shown all the same."""
        for words, out, part in (
            (["--profile"], "", "'--profile' takes a name, one of: open."),
            (["--profile", "shut", "check"], "", "'--profile' takes a name, one of: open."),
            (["--show", "check"], "", "'--show' has to stand behind '--profile NAME'"),
            (["--profile", "open"], "", "a command has to follow"),
            (["--profile", "open", "--show", "get"], "usage\n", "'--key' has to be given"),
            (["--profile", "open", "--show", "find"], "usage\n", "no command 'find'"),
            (["--profile", "open", "--show", "--build"], "usage\n", "no command '--build'"),
        ):
            with self.subTest(" ".join(words)):
                said = launch(words, "")
                self.assertEqual((said.returncode, said.stdout), (2, out), said)
                self.assertSays(said, part)

    def test_a_shown_command_can_be_pasted_and_has_no_key(self):
        """A word that a shell would take for two, or for another; the key of a group on a screen."""
        key = "ab" * 32
        said = launch(["--profile", "open", "--show", "serve", "--bind", "[::1]:6881", "--group", key])
        self.assertEqual(said.returncode, 0, said)
        words = shlex.split(said.stdout)
        self.assertEqual(pairs(words[2:])["--bind"], "[%s0001]:6881" % ("0000:" * 7))
        self.assertIn("'[", said.stdout)
        self.assertNotIn(key, said.stdout + said.stderr)

    def test_the_page_shows_what_is_printed(self):
        """A command that docs/OPEN_NETWORK shows with other words than the launcher."""
        shown = [(lines, said) for lines, said in steps(page("docs/OPEN_NETWORK.md")) if "--profile" in lines]
        self.assertGreater(len(shown), 0)
        for lines, said in shown:
            words = shlex.split(lines)
            self.assertEqual(words[0], "./nolzavirt")
            self.assertEqual(launch(words[1:]).stdout, said)


class Keeper(KeeperTest):
    def test_a_kept_node_has_the_profile(self):
        """A node or a job of a folder without what is recommended, or with another number than the folder's."""
        jobs = "announce %s 6881\nput 353a68656c6c6f\n" % TARGET
        for given, node, others in (
            ("", "--paths 8 --claim asked --per-address 8", "--paths 8 --claim asked --per-address 1 --spread yes"),
            ("--paths 2\n--per-address 3\n", "--paths 2 --claim asked --per-address 8", "--paths 2 --claim asked --per-address 3 --spread yes"),
            ("--node-per-address 1\n", "--paths 8 --claim asked --per-address 1", "--paths 8 --claim asked --per-address 1 --spread yes"),
        ):
            with self.subTest(given.replace("\n", " ")):
                kept = self.kept(bootstrap=FIRST, options=given, jobs=jobs)
                said = kept.run("--periods", "1", before=["--profile", "open"], env={"NOLZAVIRT_KEEP_MINUTE": "60"})
                self.assertEqual(said.returncode, 0, said)
                words = [command.split() for command in kept.commands()]
                own = {"--own", "--minutes", "--receives", "--table", "--key", "--value", "--announce", "--bind"}
                told = {row[0]: pairs(row[1:]) for row in words if row[0] in ("node", "peers") or row[0] == "put" and len(row) > 3}
                told = {name: {word: value for word, value in row.items() if word not in own} for name, row in told.items()}
                self.assertEqual(told, {"node": pairs(node), "peers": pairs(others), "put": pairs(others)})

    def test_a_keeper_shows_its_commands_and_runs_none(self):
        """A keeper that begins to keep a folder when it is only to show what it would do, or shows something else."""
        kept = self.kept(options="--bind 127.0.0.1:6999\n--paths 4\n")
        for folder, node, others in (
            ("node", "--bind 127.0.0.1:6999 --paths 4 --claim asked --per-address 8", "--bind 127.0.0.1:0 --paths 4 --claim asked --per-address 1 --spread yes"),
            ("none", "--paths 8 --claim asked --per-address 8", "--paths 8 --claim asked --per-address 1 --spread yes"),
        ):
            with self.subTest(folder):
                words = [kept.file("nolzavirt-keep"), "--profile", "open", "--show", kept.file(folder), "--period", "7"]
                said = subprocess.run(words, stdin=subprocess.DEVNULL, capture_output=True, text=True)
                self.assertEqual((said.returncode, said.stderr), (0, ""), said)
                rows = [line.split() for line in said.stdout.splitlines()]
                self.assertEqual([row[:2] for row in rows], [["nolzavirt", name] for name in ("node", "refresh", "peers", "put")])
                self.assertLessEqual({**pairs(node), "--minutes": "7"}.items(), pairs(rows[0][2:]).items())
                for row in rows[2:]:
                    self.assertLessEqual(pairs(others).items(), pairs(row[2:]).items())
        self.assertEqual(kept.commands(), [], "what was run")
        self.assertEqual(os.listdir(kept.file("node")), ["options"])
        self.assertFalse(os.path.exists(kept.file("none")), "it made the folder")

    def test_wrong_words_of_a_keeper_are_named(self):
        """A profile that is none, or that stands where nobody reads it."""
        kept = self.kept()
        for words, part in (
            (["--profile", "shut", kept.file("node")], "'--profile' takes a name, one of: open."),
            (["--profile"], "'--profile' takes a name, one of: open."),
            (["--profile", "open"], "name the folder"),
            (["--show", kept.file("node")], "'--show' has to stand behind"),
            ([kept.file("node"), "--profile", "open"], "has to stand before the folder"),
        ):
            with self.subTest(part):
                said = subprocess.run([kept.file("nolzavirt-keep"), *words], capture_output=True, text=True)
                self.assertEqual((said.returncode, said.stdout), (2, ""), said)
                self.assertSays(said, part)
