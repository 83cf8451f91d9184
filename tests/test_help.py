"""What the launcher says beside the program's own output: of a line, of a node at work, and of each status."""

import contextlib
import os
import subprocess
import tempfile

from shared.case import ProgramTest
from shared.launcher import launch, launcher
from shared.messages import OWN, TARGET, counts, find, identifier, line
from shared.program import INPUT_LIMIT, free_port


class Help(ProgramTest):
    def test_the_launcher_says_how_a_line_is_written(self):
        """A launcher that says nothing of a line with a shortened IPv6 address, or loses the program's own line or status."""
        for words in (["lookup", "--target", TARGET], ["check"]):
            said = launch(words, "%s [::1]:6881\n" % TARGET)
            self.assertEqual((said.returncode, said.stdout), (3, "bad line 1\n"), said)
            self.assertSays(said, "[%s0001]:6881" % ("0000:" * 7))

    def test_the_launcher_says_what_a_node_does(self):
        """A person who isn't told where a node answers, how many lookups it makes or how it ends, or an output with that in it."""
        nobody, at = line(identifier(1), "127.0.0.1", free_port()), "127.0.0.1:%d" % free_port()
        words = ["node", "--timeout", "50", "--bind", at]
        said = self.launch_with(words, nobody + find(identifier(2)) + find(OWN))
        lost = counts(0, asked=1, failed=1) + "\n"
        wanted = find(identifier(2)) + lost + find(OWN) + lost + "received 0 replied 0\n"
        self.assertEqual((said.returncode, said.stdout), (0, wanted), said)
        self.assertSays(said, "answers at %s " % at, "makes 2 lookups", "ends once all lookups are over, ")
        said = launch([*words, "--receives", "1"], "find 0\n")
        self.assertEqual((said.returncode, said.stdout), (3, "bad line 1\n"), said)
        self.assertSays(said, "at most 16", "and its receive calls number 1,", "'find', 'peers' or 'get', a space and 40 hex digits")
        said = self.launch_with(words, nobody + "put 353a68656c6c6f\n")
        self.assertEqual(said.returncode, 0, said)
        self.assertSays(said, "makes one lookup")

    def launch_with(self, words, text):
        """What the launcher makes of words where its input is a file."""
        with tempfile.TemporaryFile() as file:
            file.write(text.encode())
            file.seek(0)
            return launch(words, stdin=file)

    def bound_in_a_low_slot(self):
        """A socket whose line in the system's table begins with more spaces than most do, since its slot has one digit."""
        for _ in range(50):
            taken = self.socket()
            port = taken.getsockname()[1]
            with open("/proc/net/udp", encoding="utf-8") as table:
                slots = [int(row.split(":")[0]) for row in table if " 0100007F:%04X " % port in row]
            if not slots or slots[0] < 10:
                return taken
            low = port - slots[0] + 5  # the slots of ports that follow one another do so, too
            taken.close()
            if low >= 1024:
                with contextlib.suppress(OSError):
                    return self.socket(port=low)
        self.fail("no port in a low slot is free")

    def test_each_status_is_explained_by_the_launcher(self):
        """A status of which a person is told nothing, or a `no socket` without its cause."""
        at = "127.0.0.1:%d" % self.bound_in_a_low_slot().getsockname()[1]
        mint = ["mint", "--c1", "32", "--tries", "1"]
        rows = (
            (14, ["serve", "--bind", at], "", "is taken by another program"),
            (14, ["node", "--bind", "192.0.2.1:6881"], "", "192.0.2.1 may be no address of this machine"),
            (8, ["lookup", "--target", TARGET], "", "no line of the input is a node that can be asked"),
            (11, ["serve"], "#" * INPUT_LIMIT + "\n", "more than 1,048,576 bytes"),
            (10, mint, "", "nothing was found within --tries"),
            (12, ["put", "--value", "00"], "", "A text of N bytes is N:text"),
            (13, ["refresh"], "table %s 8 1\nend\n" % TARGET, "together they are no table"),
            (15, ["node", "--own", TARGET, "--proof", "%s,%s" % ("0" * 64, "0" * 40)], "", "--proof is no proof of this node's own i"),
            (3, ["serve"], "xyz\n", "40 hex digits, a space"),
        )
        for status, words, text, part in rows:
            with self.subTest(words[0], status=status):
                said = launch(words, text)
                self.assertEqual(said.returncode, status, said)
                self.assertSays(said, part)
        said = launch(["serve"], preexec_fn=lambda: os.close(0))
        self.assertEqual((said.returncode, said.stdout), (14, "no socket\n"), said)
        self.assertSays(said, "standard input is closed")

    def test_an_output_or_input_that_fails_is_explained(self):
        """A failed write, or read, of which a person is told nothing."""
        words = [os.path.join(self.enterContext(launcher()), "nolzavirt"), "check"]
        with open("/dev/full", "wb") as full:
            text = line(identifier(1), "127.0.0.1", 9)
            said = subprocess.run(words, input=text, stdout=full, stderr=subprocess.PIPE, text=True)
        self.assertEqual(said.returncode, 5, said)
        self.assertSays(said, "the output couldn't be written")
        where = os.open("/", os.O_RDONLY)
        self.addCleanup(os.close, where)
        said = subprocess.run(words, stdin=where, capture_output=True, text=True)
        self.assertEqual((said.returncode, said.stdout), (6, "source fault\n"), said)
        self.assertSays(said, "standard input couldn't be read")
