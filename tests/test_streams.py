"""What goes through the standard streams: inputs that come late, long or not at all, and outputs that nobody takes."""

import os
import resource
import signal
import time

from shared.case import ProgramTest
from shared.messages import identifier
from shared.peers import answers
from shared.program import INPUT_LIMIT, ended, hand, lookup, run


class Inputs(ProgramTest):
    def test_an_input_that_comes_byte_by_byte_is_read_whole(self):
        """Reads that drop bytes, or an end that is taken for a pause."""
        peer = self.peer(play=answers)
        child = self.start(lookup())
        for byte in ("# a comment\r\n\n" + peer.line()).encode():
            child.stdin.write(bytes([byte]))
            child.stdin.flush()
            time.sleep(0.002)
        hand(child, "")
        self.assertEnds(ended(child), 0, peer.line() + "found 1 asked 1 failed 0 turned 0\n")

    def test_the_longest_input_is_read_whole(self):
        """Bytes of a read past some size dropped: the one contact stands at the end, behind a megabyte of comments."""
        peer = self.peer(play=answers)
        tail = peer.line().encode()
        comment = b"#" + b"c" * 98 + b"\n"
        front = INPUT_LIMIT - len(tail)
        body = comment * (front // 100)
        body += b"#" * (front - len(body) - 1) + b"\n" if front - len(body) else b""
        text = body + tail
        self.assertEqual(len(text), INPUT_LIMIT, "the test's own input has other bytes")
        self.assertEnds(run(lookup(), text), 0, peer.line() + "found 1 asked 1 failed 0 turned 0\n")
        self.assertEnds(run(lookup(), b"\n" + text), 11, "too long\n")

    def test_a_line_past_the_first_pages_is_judged_by_its_number(self):
        """Bytes of a read past 4,000 dropped, or lines counted wrong."""
        self.assertEnds(run(lookup(), "# c\n" * 5000 + "xyz\n"), 3, "bad line 5001\n")

    def test_a_closed_input_is_refused(self):
        """No guard against a socket in the place of standard input."""
        child = self.start(lookup(), stdin=None, preexec_fn=lambda: os.close(0))
        self.assertEnds(ended(child), 14, "no socket\n")

    def test_a_folder_as_input_is_a_read_that_failed(self):
        """A failed read taken for the end of the input."""
        folder = os.open("/", os.O_RDONLY)
        self.addCleanup(os.close, folder)
        self.assertEnds(ended(self.start(lookup(), stdin=folder)), 6, "source fault\n")

    def test_each_refusal_has_its_line_and_status(self):
        """A refusal that ends with status 0 or with another's line."""
        self.assertEnds(run([self.program]), 2, "usage\n")
        self.assertEnds(run([self.program, "find"]), 2, "usage\n")
        self.assertEnds(run([self.program, "lookup"]), 2, "usage\n")
        self.assertEnds(run(lookup("--timeout", "0")), 2, "usage\n")
        self.assertEnds(run(lookup("--timeout=50")), 2, "usage\n")
        self.assertEnds(run(lookup(), ""), 8, "no seeds\n")
        self.assertEnds(run(lookup(), "# none\n\n"), 8, "no seeds\n")
        self.assertEnds(run(lookup(), "xyz"), 3, "bad line 1\n")
        self.assertEnds(run(lookup(b"\xff".decode("utf-8", "surrogateescape"))), 1, "no start\n")


class Outputs(ProgramTest):
    def test_a_short_write_is_no_whole_write(self):
        """A partial write counted as whole: the file takes ten bytes and no more."""
        peer = self.peer(play=answers)

        def limit():
            signal.signal(signal.SIGXFSZ, signal.SIG_IGN)
            resource.setrlimit(resource.RLIMIT_FSIZE, (10, 10))

        name = os.path.join(self.folder(), "out")
        with open(name, "wb") as out:
            child = self.start(lookup(), stdout=out, preexec_fn=limit)
            child.communicate(peer.line().encode(), timeout=100)
        with open(name, "rb") as kept:
            written = kept.read()
        self.assertEqual(child.returncode, 5, "with %r" % written)
        self.assertEqual(written, peer.line().encode()[:10])

    def test_an_output_through_a_slow_pipe_is_whole(self):
        """Bytes of the output lost where the reader is slow."""
        peers = [self.peer(identifier(n), play=answers) for n in range(1, 9)]
        child = self.start(lookup())
        hand(child, "".join(p.line() for p in peers))
        out = b""
        while byte := os.read(child.stdout.fileno(), 1):
            out += byte
        self.assertEqual(child.wait(timeout=100), 0, out)
        self.assertEqual(out.decode(), "".join(p.line() for p in peers) + "found 8 asked 8 failed 0 turned 0\n")

    def test_a_full_device_is_a_write_that_failed(self):
        """A write whose failure is passed over."""
        peer = self.peer(play=answers)
        with open("/dev/full", "wb") as full:
            child = self.start(lookup(), stdout=full)
            child.communicate(peer.line().encode(), timeout=100)
        self.assertEqual(child.returncode, 5)

    def test_a_closed_output_is_a_write_that_failed(self):
        """A closed output taken for one that took all."""
        peer = self.peer(play=answers)
        child = self.start(lookup(), stdout=None, preexec_fn=lambda: os.close(1))
        child.communicate(peer.line().encode(), timeout=100)
        self.assertIn(child.returncode, (5, 14))
