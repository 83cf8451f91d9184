"""The words of the command line: which options each command takes, and what is said of a wrong word."""

import subprocess

from shared.case import ProgramTest
from shared.launcher import LAUNCHER, first_cells, launch, options
from shared.messages import TARGET
from shared.program import run

# Values that each text of the launcher's table allows, and some that it doesn't.
VALUES = {
    "40 hex digits": (["0" * 40, "9aF" + "0" * 37], ["0" * 39, "0" * 41, "g" * 40]),
    "64 hex digits": (["0" * 64, "9aF" + "0" * 61], ["0" * 63, "0" * 65, "g" * 64]),
    "64 hex digits, a comma and 40 hex digits": (
        ["0" * 64 + "," + "0" * 40, "9aF" + "0" * 61 + "," + "9aF" + "0" * 37],
        ["0" * 104, "0" * 64 + "," + "0" * 39, "0" * 63 + "," + "0" * 40, "0" * 64 + ",," + "0" * 40, "0" * 40 + "," + "0" * 64],
    ),
    "an even number of hex digits, at least two": (["00", "353a68656c6c6F"], ["", "0", "000", "g0"]),
    "4 or 6": (["4", "6"], ["5", "46", "04"]),
    "named or asked": (["named", "asked"], ["name", "Asked", "namedasked", ""]),
    "yes or no": (["yes", "no"], ["maybe", "Yes", "yesno", ""]),
    "an address and port, a.b.c.d:port or [h:h:h:h:h:h:h:h]:port, each h four hex digits": (
        ["127.0.0.1:0", "[%s0001]:0" % ("0000:" * 7)],
        ["127.0.0.1", "127.0.0.1:65536", "[::1]:0", "[%s00001]:0" % ("0000:" * 7), "[%s0001]:65536" % ("0000:" * 7)],
    ),
}


def values(text):
    """The values that the text allows, both ends of numbers, and some that it doesn't."""
    if text in VALUES:
        return VALUES[text]
    least, most = (int(number) for number in text.split(" to "))
    return [str(least), str(most)], [str(least - 1), str(most + 1), "0%d" % most]


# What a command is given besides the option that is tried.
NEEDED = {
    "lookup": ["--target", TARGET],
    "peers": ["--key", TARGET],
    "get": ["--key", TARGET],
    "put": ["--value", "353a68656c6c6f"],
    "mint": ["--tries", "1"],
}


class Words(ProgramTest):
    def test_the_launcher_and_the_documents_have_the_proved_options(self):
        """A table of options, in the launcher or in the documents, that isn't the one that the program is proved to go by."""
        ended = subprocess.run([LAUNCHER, "--options"], capture_output=True, text=True)
        self.assertEqual(ended.returncode, 0, ended.stderr)

    def test_each_command_takes_the_options_of_the_launcher_alone(self):
        """An option or a bound of the launcher's table that the program doesn't have, or one of the program that it lacks."""
        rows = options()
        commands = sorted({command for _, _, of in rows for command in of})
        self.assertEqual(commands, sorted(first_cells("commands.txt")), "the commands")
        for command in commands:
            with self.subTest(command):
                self.assertTakes(command, rows)

    def assertTakes(self, command, rows):
        wrong = []
        for option, text, of in rows:
            if command not in of and any(one == option and command in others for one, _, others in rows):
                continue
            good, bad = values(text) if command in of else ([], values(text)[0])
            needed = NEEDED.get(command, [])
            needed = [] if option in needed else needed
            for value in good + bad:
                words = [self.program, command, *needed, option, value]
                if (run(words, "xyz\n").status != 2) != (value in good):
                    wrong.append(" ".join(words[1:]))
        self.assertEqual(wrong, [], "words that are taken, and should be refused, or the other way round")

    def test_the_launcher_writes_an_address_out(self):
        """A launcher that hands a shortened address to the program, which refuses it."""
        said = launch(["lookup", "--target", TARGET, "--family", "6", "--bind", "[::1]:0"], "")
        wanted = [(8, "no seeds\n"), (14, "no socket\n")]  # the second where the machine has no IPv6
        self.assertIn((said.returncode, said.stdout), wanted, str(said))

    def test_the_launcher_names_a_wrong_word_with_what_would_do(self):
        """A wrong word that is not named, or without the form that is taken."""
        hex_form, id_form = "an even number of hex digits", "40 hex digits"
        options_of = "Those of 'lookup' are: --target "
        wrong = (
            (["put", "--value", ""], "'--value' can't be ''. It takes " + hex_form),
            (["lookup", "--target", TARGET, "--"], "no option '--'. " + options_of),
            (["lookup", "--target", "Z", "--"], "'--target' can't be 'Z'. It takes " + id_form),
            (["lookup", "--target", TARGET, ""], "no option ''. " + options_of),
            (["lookup", "--target", ""], "It takes " + id_form),
            (["lookup", "--target", TARGET, "--k=3"], "write it as two words, '--k 3'"),
            (["lookup"], "'--target' has to be given"),
            (["get", "--key", TARGET, "--claim", "told"], "'--claim' can't be 'told'. It takes named or asked"),
            (["serve", "--claim", "asked"], "'serve' has no option '--claim'. It belongs to: lookup peers get put node sim"),
            (["find"], "no command 'find'. The commands are: lookup "),
        )
        for words, part in wrong:
            with self.subTest(words=words):
                said = launch(words, "")
                self.assertEqual((said.returncode, said.stdout), (2, "usage\n"), said)
                self.assertSays(said, part)
        for words in (["lookup", "--target", b"\xff"], [b"\xff"], ["lookup", "--target", TARGET, b"--\xff", "1"]):
            with self.subTest(words=words):
                said = launch(words, "", errors="replace")
                self.assertEqual((said.returncode, said.stdout), (1, "no start\n"), said)
                self.assertSays(said, "a word isn't UTF-8", "'./nolzavirt help COMMAND'")
