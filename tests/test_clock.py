"""How long a lookup and a node wait, on the system's clock: whatever comes meanwhile, and where nothing does."""

import signal
import threading
import time
import unittest

from shared.case import ProgramTest, second_try
from shared.messages import OWN, asks, found, reply
from shared.peers import answers, silent
from shared.program import Server, ended, hand, lookup, run, state, until

QUIET = 20  # seconds for which nobody asks the node that is left alone
LEFT_ALONE = []  # that node, and since when


def setUpModule():
    """Begins a node that nobody asks while the lookups of this module wait."""
    LEFT_ALONE[:] = Server("--own", OWN.hex()), time.monotonic()
    unittest.addModuleCleanup(LEFT_ALONE[0].close)


class Lookups(ProgramTest):
    def test_a_wait_of_three_seconds_is_three_seconds(self):
        """The time that is left computed the wrong way round, which ends by a link fault or at once."""
        peer = self.peer(play=silent)
        ended = run(lookup("--timeout", "3000"), peer.line())
        self.assertEnds(ended, 0, "found 0 asked 1 failed 1 turned 0\n")
        self.assertGreaterEqual(ended.seconds, 2.9)
        self.assertLessEqual(ended.seconds, 30)

    @second_try("a machine that is busy may take a second to start each of three runs")
    def test_a_short_wait_is_short(self):
        """A wait that is always the longest, or the default, or a clock that goes by whole seconds."""
        peer = self.peer(play=silent)
        runs = [run(lookup("--timeout", "50"), peer.line()) for _ in range(3)]
        for ended in runs:
            self.assertEnds(ended, 0, found(asked=1, failed=1))
        self.assertLess(min(ended.seconds for ended in runs), 0.9, "seconds of the quickest")

    def test_a_late_answer_within_the_wait_is_heard(self):
        """A wait that ends early, or gives up before its time."""

        def late(peer, query, source):
            time.sleep(1.2)
            answers(peer, query, source)

        peer = self.peer(play=late)
        ended = run(lookup("--timeout", "20000"), peer.line())
        self.assertEnds(ended, 0, peer.line() + "found 1 asked 1 failed 0 turned 0\n")

    def test_noise_does_not_move_the_clock(self):
        """A packet that moves the clock to the end of the wait, so that the answer behind it is late."""

        def noisy(peer, query, source):
            for _ in range(5):
                peer.socket.sendto(b"x", source)
                time.sleep(0.05)
            time.sleep(0.3)
            answers(peer, query, source)

        peer = self.peer(play=noisy)
        ended = run(lookup("--timeout", "20000"), peer.line())
        self.assertEnds(ended, 0, peer.line() + "found 1 asked 1 failed 0 turned 0\n")

    @second_try("a machine that is busy may keep the lookup from reading the clock in time")
    def test_the_clock_goes_by_milliseconds(self):
        """A clock that is too quick or too slow: noise makes many receives of one wait, and each reads it."""

        def noisy(peer, query, source):
            for _ in range(13):
                peer.socket.sendto(b"x", source)
                time.sleep(0.1)
            answers(peer, query, source)

        def endless(peer, query, source):
            end = time.monotonic() + 6
            while time.monotonic() < end:
                try:
                    peer.socket.sendto(b"x", source)
                except OSError:
                    return
                time.sleep(0.05)

        peer = self.peer(play=noisy)
        ended = run(lookup("--timeout", "6000"), peer.line())
        self.assertEnds(ended, 0, peer.line() + "found 1 asked 1 failed 0 turned 0\n")
        peer = self.peer(play=endless)
        ended = run(lookup("--timeout", "700"), peer.line())
        self.assertEnds(ended, 0, "found 0 asked 1 failed 1 turned 0\n")
        self.assertGreaterEqual(ended.seconds, 0.6)
        self.assertLess(ended.seconds, 4)

    def test_a_wait_that_is_interrupted_by_the_hundred_goes_on(self):
        """An interrupted wait that counts as a failure, or that ends the wait, or eight of them that do."""
        woken = threading.Event()

        def late(peer, query, source):
            woken.wait(60)
            answers(peer, query, source)

        peer = self.peer(play=late)
        child = self.start(lookup("--timeout", "20000"))
        hand(child, peer.line())
        end = time.monotonic() + 20
        until(lambda: peer.heard)
        for _ in range(200):
            for sent, states in ((signal.SIGSTOP, "T"), (signal.SIGCONT, "SR")):
                child.send_signal(sent)
                while state(child) not in states and child.poll() is None and time.monotonic() < end:
                    time.sleep(0.0005)
            time.sleep(0.001)
        woken.set()
        self.assertEnds(ended(child), 0, peer.line() + "found 1 asked 1 failed 0 turned 0\n")

    def test_the_millionth_stray_ends_the_lookup(self):
        """Strays that aren't counted, or a lookup that strays keep from its deadline."""
        stop = threading.Event()
        self.addCleanup(stop.set)

        def flood(peer, query, source):
            while not stop.is_set():
                for _ in range(1000):
                    try:
                        peer.socket.sendto(b"x", source)
                    except OSError:
                        return

        peer = self.peer(play=flood)
        ended = run(lookup("--timeout", "3000"), peer.line())
        stop.set()
        possible = (
            (7, b"strays\n"),
            (0, b"found 0 asked 1 failed 1 turned 0\n"),
        )
        self.assertIn((ended.status, ended.out), possible, str(ended))
        self.assertLess(ended.seconds, 60)


class NodeLeftAlone(ProgramTest):
    def test_a_node_that_nobody_asks_waits(self):
        """Waits that are cut short, to ten milliseconds say: the thousandth that brings nothing would end the node."""
        server, since = LEFT_ALONE
        time.sleep(max(0, since + QUIET - time.monotonic()))
        self.assertEqual(server.ask(asks(b"ping")), reply(b"aa", OWN))
