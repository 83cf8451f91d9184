"""Lines that can't be read: the launcher shows each, and names the usual mistakes, whatever the input comes by."""

import contextlib
import os
import pty
import select
import socket
import subprocess
import time

from shared.case import ProgramTest
from shared.launcher import launcher
from shared.messages import TARGET
from shared.program import ROOT

ID, OTHER, KEY, X = "1" * 40, "2" * 40, "5" * 64, "6" * 40
NODE, NEXT = ID + " 127.0.0.1:7\n", OTHER + " 127.0.0.1:8\n"
TABLE = "table %s 8 1\nrow -\n" % ID
ASK = "contacts HOST:PORT"
HEX = "%s has %d hex digits, and %d have to be there"

# A command, its input, the number of its first bad line, and what is said of it.
MISTAKES = [
    # What an editor or another program left there.
    ("check", b"\xef\xbb\xbf" + NODE.encode(), 1, "byte order mark (BOM)"),
    ("lookup", ("\ufeff" + NODE).encode("utf-16-le"), 1, "UTF-16"),
    ("check", NODE.encode("utf-16-le"), 1, "byte 0"),
    ("check", b"\x1f\x8b\x08" + NODE.encode(), 1, "compressed"),
    ("check", ID + "\t127.0.0.1:7\n", 1, "a tab at place 41"),
    ("node", "find\t%s\n" % ID, 1, "a tab at place 5"),
    ("check", NODE + ID + "\u00a0127.0.0.1:7\n", 2, "a no-break space at place 41"),
    ("check", "\u200b" + NODE, 1, "a space without width at place 1"),
    ("check", "\u201c%s\u201d\n" % NODE.strip(), 1, "a typographic quote or dash at place 1"),
    ("check", ID + " 127.0.0.1:7 \u00e4\n", 1, "place 54 that isn't ASCII"),
    ("check", "\x1b[1m" + NODE, 1, "an escape character"),
    ("check", ID + "\x07 127.0.0.1:7\n", 1, "a control character at place 41"),
    ("check", NODE.strip() + "\r" + NEXT, 1, "a carriage return at place 53"),
    ("check", NODE.strip() + "\r\r\n", 1, "two carriage returns"),
    # Spaces.
    ("check", " " + NODE, 1, "it begins with a space"),
    ("check", "# first\n" + NODE.strip() + " \n", 2, "it ends with a space"),
    ("check", ID + "  127.0.0.1:7\n", 1, "two spaces"),
    ("check", NODE + "  \n", 2, "spaces only"),
    # Something else that a person has at hand.
    ("lookup", "router.bittorrent.com:6881\n", 1, "it is HOST:PORT"),
    ("node", "localhost:6881\n", 1, "contacts localhost:6881' prints such lines"),
    ("lookup", "127.0.0.1:6881\n", 1, "no identifier before the address"),
    ("lookup", "[%s0001]:6881\n" % ("0000:" * 7), 1, "no identifier before the address"),
    ("lookup", TABLE, 1, "a line of a saved table"),
    ("serve", NODE + "live %s 127.0.0.1:7 0\n" % ID, 2, "'refresh' reads. Its live nodes"),
    ("check", "sibling %s 127.0.0.1:7\n" % ID, 1, "a line of a saved table"),
    ("table", "end\n", 1, "a line of a saved table"),
    ("get", NODE + "find %s\n" % ID, 2, "a job, which only 'node' takes"),
    ("put", "announce %s 6881\n" % ID, 1, "a job, which only 'node' takes"),
    ("peers", NODE + "found 1 asked 1 failed 0 turned 0\n", 2, "a line that a command prints beside its nodes"),
    ("lookup", "none\n", 1, "a line that a command prints"),
    ("lookup", "value 353a68656c6c6f\n", 1, "a line that a command prints"),
    ("peers", "magnet:?xt=urn:btih:" + ID + "\n", 1, "a magnet link"),
    ("lookup", "udp://tracker.invalid:80/announce\n", 1, "a URL"),
    ("check", "// first\n", 1, "a comment begins with '#'"),
    ("check", NODE.strip() + " # first\n", 1, "a comment has to be a line of its own"),
    ("check", '{"id": "%s"}\n' % ID, 1, "quotes or brackets"),
    # The identifier.
    ("check", NODE[1:], 1, HEX % ("its identifier", 39, 40)),
    ("check", "1" + NODE, 1, HEX % ("its identifier", 41, 40)),
    ("check", KEY + " 127.0.0.1:7\n", 1, HEX % ("its identifier", 64, 40)),
    ("check", "O" + NODE[1:], 1, "its identifier has 'O' at place 1, which is no hex digit"),
    ("check", "0x" + NODE, 1, "its identifier begins with '0x'"),
    ("check", "M" * 32 + " 127.0.0.1:7\n", 1, "base32"),
    ("check", ID + "\n", 1, "no address behind the identifier"),
    ("check", "127.0.0.1:7 " + ID + "\n", 1, "the identifier has to stand before the address"),
    ("check", "node " + NODE, 1, "'node' stands before the identifier"),
    ("check", ID + ",127.0.0.1:7\n", 1, "',' stands behind the identifier"),
    ("check", ID + "@127.0.0.1:7\n", 1, "'@' stands behind the identifier"),
    # The address.
    ("check", ID + " localhost:7\n", 1, "'localhost' is a name, and an address has to stand there"),
    ("lookup", ID + " router.bittorrent.com:6881\n", 1, "'router.bittorrent.com' is a name"),
    ("check", ID + " router.bittorrent.com\n", 1, "'router.bittorrent.com' is a name"),
    ("check", ID + " 127.0.0.1\n", 1, "its port is missing: a.b.c.d:port"),
    ("check", ID + " 127.0.0.1:\n", 1, "its port is missing behind the colon"),
    ("check", ID + " 127.0.0.1 7\n", 1, "a colon has to stand between address and port"),
    ("check", ID + " 127.0.0.1:65536\n", 1, "its port 65536 is out of range"),
    ("check", ID + " 127.0.0.1:999999\n", 1, "its port 999999 is out of range"),
    ("check", ID + " 127.0.0.1:-1\n", 1, "its port '-1' is no number"),
    ("check", ID + " 127.0.0.1:06881\n", 1, "its port has leading zeros"),
    ("check", ID + " 127.0.0.256:7\n", 1, "'256' where a number from 0 to 255"),
    ("check", ID + " 127.0.0.01:7\n", 1, "leading zeros in '01'"),
    ("check", ID + " 127.0.1:7\n", 1, "its address has 3 numbers"),
    ("check", ID + " 127.0.0.0.1:7\n", 1, "its address has 5 numbers"),
    ("check", ID + " 10.0.0.0/8:7\n", 1, "its address has a '/'"),
    ("check", ID + " [::1]:7\n", 1, "has to be written out: [%s0001]:7" % ("0000:" * 7)),
    ("check", ID + " [fe80::1%eth0]:7\n", 1, "its IPv6 address has a zone"),
    ("check", ID + " [::ffff:127.0.0.1]:7\n", 1, "its IPv6 address has dots"),
    ("check", ID + " ::1:7\n", 1, "has to stand in brackets"),
    ("check", ID + " [::1\n", 1, "no closing bracket"),
    ("check", ID + " [::1]\n", 1, "its port is missing behind the bracket"),
    ("check", ID + " [%s0001]:70000\n" % ("0000:" * 7), 1, "its port 70000 is out of range"),
    # The proof.
    ("check", NODE.strip() + " " + KEY + "\n", 1, "a key without an X"),
    ("check", NODE.strip() + " " + KEY + "," + X + "\n", 1, "a space, and no comma"),
    ("check", NODE.strip() + " x\n", 1, "it has three words"),
    ("check", "%s %s %s\n" % (ID, KEY, X), 1, "it is what 'mint' prints"),
    ("check", "%s %s %s\n" % (NODE.strip(), KEY[1:], X), 1, HEX % ("its key", 63, 64)),
    ("check", "%s %s %s\n" % (NODE.strip(), KEY, X + "6"), 1, HEX % ("its X", 41, 40)),
    ("check", "%s %s %s 1\n" % (NODE.strip(), KEY, X), 1, "it has 5 words"),
    # Jobs of `node`.
    ("node", NODE + "find\n", 2, "'find' has no identifier behind it"),
    ("node", "find %s\n" % ID[1:], 1, HEX % ("its identifier", 39, 40)),
    ("node", "peers %s\n" % (ID + "1"), 1, HEX % ("its key", 41, 40)),
    ("node", "get %s 6881\n" % ID, 1, "'get' takes one word, and '6881' is one more"),
    ("node", "announce %s\n" % ID, 1, "'announce' has no port behind its key"),
    ("node", "announce %s 65536\n" % ID, 1, "its port 65536 is out of range"),
    ("node", "announce %s 0080\n" % ID, 1, "its port has leading zeros"),
    ("node", "announce %s 1 2\n" % ID, 1, "'announce' takes two words"),
    ("node", "lookup %s\n" % ID, 1, "'lookup' is no kind of job"),
    ("node", "Find %s\n" % ID, 1, "'Find' is no kind of job"),
    ("node", "put\n", 1, "'put' has no value behind it"),
    ("node", "put 5:hello\n", 1, "its value is written as it is, and has to be in hex"),
    ("node", "put 353\n", 1, "its value has 3 hex digits, and their number has to be even"),
    ("node", "put 0x353a\n", 1, "its value begins with '0x'"),
    ("node", "put zz\n", 1, "its value is no hex"),
    ("node", "put %s\n" % ("00" * 1001), 1, "its value has 1001 bytes"),
    ("node", NODE + "put 00\n", 2, "its value isn't bencode"),
    ("node", "put 353a68656c6c6f00\n", 1, "its value isn't bencode"),
    ("node", ("find %s\n" % ID) * 17, 17, "it is the 17th job"),
    ("node", NODE + ("find %s\n" % ID) * 15 + "put 353a68656c6c6f\n# more\n" + "announce %s 0\n" % ID, 19, "it is the 17th job"),
    # A saved table.
    ("refresh", NODE, 1, "it is a line of nodes, and 'refresh' reads what 'table'"),
    ("refresh", "", 1, "the input ends before it"),
    ("refresh", TABLE, 3, "the input ends before it"),
    ("refresh", TABLE + "live %s 127.0.0.1:7\nend\n" % ID, 3, "it has 3 words, and 'live' has 4"),
    ("refresh", TABLE + "live %s 127.0.0.1:7 0\nsibling %s 127.0.0.1:7 0\nend\n" % (ID, ID), 4, "it has 4 words, and 'sibling' has 3"),
    ("refresh", TABLE + "live %s localhost:7 0\n" % ID, 3, "'localhost' is a name"),
    ("refresh", TABLE + "live %s 127.0.0.1:70000 0\n" % ID, 3, "its port 70000 is out of range"),
    ("refresh", TABLE + "live %s 127.0.0.1:7 0\n" % ID[1:], 3, HEX % ("its identifier", 39, 40)),
    ("refresh", TABLE + "end\n\n", 4, "no line of a saved table is"),
    ("refresh", "# mine\n" + TABLE + "end\n", 1, "a saved table has no comments"),
    ("refresh", TABLE.replace("\n", "\r\n"), 1, "it ends with a carriage return"),
    ("refresh", "found 3 asked 3 failed 0 turned 0\n", 1, "a line of counts"),
    ("refresh", "dead %s 127.0.0.1:7\n" % ID, 1, "no line of a saved table begins with 'dead'"),
    ("refresh", "table %s 8\n" % ID, 1, "it has 3 words, and four have to be there"),
]
NEEDED = {"lookup": ["--target", TARGET], "peers": ["--key", TARGET], "get": ["--key", TARGET], "put": ["--value", "353a68656c6c6f"]}
READ_NODES = ("lookup", "peers", "get", "put", "serve", "table", "check")
# Stands for a program that reads as it goes: it answers each line at once.
GOES = "#!/bin/sh\nwhile read -r line; do echo \"$line\"; done\n"


def as_bytes(text):
    return text if isinstance(text, bytes) else text.encode()


def shown(line):
    """The first 80 bytes of a line, with all that can't be seen written out."""
    names = {9: "\\t", 13: "\\r", 92: "\\\\"}
    text = "".join(names.get(byte) or (chr(byte) if 32 <= byte < 127 else "\\x%02x" % byte) for byte in line[:80])
    return text + (" .. (%d bytes)" % len(line) if len(line) > 80 else "")


class MistakesTest(ProgramTest):
    @classmethod
    def setUpClass(cls):
        cls.home = cls.enterClassContext(launcher())

    def words(self, command):
        return [os.path.join(self.home, "nolzavirt"), command, *NEEDED.get(command, [])]

    def say(self, command, text, **options):
        """What the launcher says of an input by a pipe, unless it comes by something else."""
        if "stdin" not in options:
            options["input"] = as_bytes(text)
        said = subprocess.run(self.words(command), capture_output=True, **options)
        said.stdout, said.stderr = said.stdout.decode(), said.stderr.decode()
        return said

    def assertShows(self, said, text, number, part=""):
        """It says of a line by its number how it reads, and what is wrong with it."""
        self.assertEqual((said.returncode, said.stdout), (3, "bad line %d\n" % number), said)
        lines = as_bytes(text).split(b"\n")
        wanted = "line %d is: %s\n" % (number, shown(lines[number - 1])) if number < len(lines) else "there is no line %d.\n" % number
        self.assertSays(said, "nolzavirt: " + wanted, part)


class Lines(MistakesTest):
    def test_each_mistake_is_named(self):
        """A line that isn't shown, or shown as another; a mistake that has no text, or that of another one; a line of which the
        program says something else."""
        self.assertGreaterEqual(len(MISTAKES), 60)
        for command, text, number, part in MISTAKES:
            with self.subTest(part, command=command):
                self.assertShows(self.say(command, text), text, number, part)

    def test_the_line_is_the_same_for_all_that_read_nodes(self):
        """A command that reads lines otherwise than the one by which the launcher finds the line."""
        text = NODE + "# x\n\n" + NEXT + ID + " 127.0.0.1:65536\n"
        for command in READ_NODES:
            with self.subTest(command):
                self.assertShows(self.say(command, text), text, 5, "its port 65536")

    def test_the_line_is_found_without_the_program(self):
        """A line that is shown behind --unproved, where no program is built that says its number, and is another than the first bad
        one."""
        for command, text, number, part in MISTAKES:
            if command == "refresh" or "isn't bencode" in part or "byte 0" in part or "UTF-16" in part:
                continue
            with self.subTest(part, command=command):
                words = ["awk", "-v", "seek=1", "-v", "command=" + command, "-f", os.path.join(ROOT, "share/bad_line.awk")]
                environment = {**os.environ, "LC_ALL": "C"}
                said = subprocess.run(words, input=as_bytes(text), capture_output=True, env=environment)
                self.assertEqual((said.stdout.decode(), said.stderr), ("%d\n" % number, b""))

    def test_a_long_line_is_cut(self):
        """A screen full of a line that has no end."""
        text = NODE + "\\" + "z" * 500000 + "\n"
        said = self.say("check", text)
        self.assertShows(said, text, 2)
        self.assertLess(len(said.stderr), 2000)

    def test_an_input_without_nodes_is_named(self):
        """An empty input, or one whose nodes nobody asks, of which is said only that no line of it can be asked."""
        six = "%s [%s0001]:7\n" % (ID, "0000:" * 7)
        for text, part in (
            ("", "the input is empty"),
            ("# x\n\n", "the input has no line of a node"),
            (six + six, "all nodes of the input are of IPv6"),
            (ID + " 127.0.0.1:0\n", "all nodes of the input have port 0"),
        ):
            for how in ("pipe", "file"):
                with self.subTest(part, how=how):
                    said = self.say_from(how, "lookup", text)
                    self.assertEqual((said.returncode, said.stdout), (8, "no seeds\n"), said)
                    self.assertSays(said, part, "no line of the input is a node that can be asked")
        said = self.say("lookup", "", stdin=subprocess.DEVNULL)
        self.assertSays(said, "the input is empty")

    def say_from(self, how, command, text):
        if how == "pipe":
            return self.say(command, text)
        with open(os.path.join(self.folder(), "input"), "w+b") as file:
            file.write(as_bytes(text))
            file.seek(0)
            return self.say(command, None, stdin=file)


class Ways(MistakesTest):
    """What an input comes by."""

    TEXT = NODE + NEXT + ID + " localhost:7\n"

    def test_a_line_of_a_file_is_shown(self):
        """A line of a file that isn't shown, or that is counted from the file's beginning though another program read some of it."""
        with open(os.path.join(self.folder(), "input"), "w+b") as file:
            file.write(self.TEXT.encode())
            file.flush()
            for at, number in ((0, 3), (len(NODE), 2)):
                with self.subTest(at):
                    file.seek(at)
                    self.assertShows(self.say("check", None, stdin=file), self.TEXT[at:], number, "'localhost' is a name")

    def test_a_line_of_a_socket_is_shown(self):
        """A line that isn't shown if the input comes by a socket."""
        here, there = socket.socketpair()
        with here, there:
            here.sendall(self.TEXT.encode())
            here.shutdown(socket.SHUT_WR)
            self.assertShows(self.say("check", None, stdin=there), self.TEXT, 3, "'localhost' is a name")

    def test_a_line_of_a_terminal_is_shown(self):
        """A line that isn't shown if it is typed, or an input whose end at a terminal isn't seen."""
        here, there = pty.openpty()
        self.addCleanup(os.close, here)
        os.write(here, self.TEXT.encode() + b"\x04")
        said = self.say("check", None, stdin=there)
        os.close(there)
        self.assertShows(said, self.TEXT, 3, "'localhost' is a name")
        self.assertSays(said, "reads nodes, one a line, from this terminal")

    def test_what_is_not_open_or_no_text_ends_as_ever(self):
        """A closed input, or a folder, of which another thing is said since a copy of it is to be kept."""
        said = self.say("serve", None, stdin=None, preexec_fn=lambda: os.close(0))
        self.assertEqual((said.returncode, said.stdout), (14, "no socket\n"), said)
        where = os.open("/", os.O_RDONLY)
        self.addCleanup(os.close, where)
        said = self.say("check", None, stdin=where)
        self.assertEqual((said.returncode, said.stdout), (6, "source fault\n"), said)

    def test_nothing_is_left(self):
        """A copy of an input that stays on the disk, or a run that fails where none can be kept."""
        place = self.folder()
        for text, status in ((self.TEXT, 3), (NODE, 0), ("#" * 1_048_577, 11)):
            said = self.say("check", text, env={**os.environ, "TMPDIR": place})
            self.assertEqual(said.returncode, status, said)
            self.assertEqual(os.listdir(place), [])
        said = self.say("check", self.TEXT, env={**os.environ, "TMPDIR": os.path.join(place, "none")})
        self.assertEqual((said.returncode, said.stdout), (3, "bad line 3\n"), said)
        self.assertSays(said, "40 hex digits, a space")

    def test_a_command_that_reads_nothing_does_not_wait(self):
        """A run that ends only when its input does, though the program ended before."""
        here, there = os.pipe()
        self.addCleanup(os.close, there)
        began = time.monotonic()
        said = self.say_value(here)
        os.close(here)
        self.assertEqual((said.returncode, said.stdout), (12, b"bad value\n"), said)
        self.assertLess(time.monotonic() - began, 10)

    def say_value(self, stdin):
        words = [os.path.join(self.home, "nolzavirt"), "put", "--value", "00"]
        return subprocess.run(words, stdin=stdin, capture_output=True, timeout=100)


class Streams(ProgramTest):
    """What the launcher hands on to a program that reads as it goes."""

    def setUp(self):
        self.home = self.enterContext(launcher())
        self.program_is(GOES)

    def program_is(self, text):
        program = os.path.join(self.home, "crates/node_main/out/node_main")
        with contextlib.suppress(FileNotFoundError):
            os.remove(program)
        with open(program, "w") as file:
            file.write(text)
        os.chmod(program, 0o755)

    def test_a_live_stream_is_not_kept_back(self):
        """A launcher that hands a line on only when the next one comes, or the input ends."""
        child = self.start([os.path.join(self.home, "nolzavirt"), "check"], bufsize=0)
        for number in range(5):
            line = b"line %d\n" % number
            child.stdin.write(line)
            self.assertTrue(select.select([child.stdout], [], [], 20)[0], "no answer while the input is open")
            self.assertEqual(child.stdout.readline(), line)
        child.stdin.close()
        child.stdin = None
        self.assertEqual(child.wait(timeout=100), 0)

    def test_an_input_is_handed_on_as_it_is(self):
        """A byte of an input that the launcher changes, adds or loses."""
        self.program_is("#!/bin/sh\nexec cat\n")
        text = bytes(range(256)) * 4096
        said = subprocess.run([os.path.join(self.home, "nolzavirt"), "check"], input=text, capture_output=True)
        self.assertEqual(said.returncode, 0)
        self.assertTrue(said.stdout == text, "%d bytes of %d" % (len(said.stdout), len(text)))

    def test_a_signal_ends_what_hands_the_input_on(self):
        """What copies an input, and goes on when the launcher was ended."""
        here, there = os.pipe()
        self.addCleanup(os.close, there)
        place = self.folder()
        words = [os.path.join(self.home, "nolzavirt"), "check"]
        child = self.start(words, stdin=here, env={**os.environ, "TMPDIR": place})
        os.close(here)
        os.write(there, b"x\n")
        self.assertEqual(child.stdout.readline(), b"x\n")
        child.terminate()
        self.assertEqual(child.wait(timeout=100), 143)
        with self.assertRaises(BrokenPipeError):
            for _ in range(100):
                os.write(there, b"y\n")
                time.sleep(0.01)
        self.assertEqual(os.listdir(place), [])
