"""Sessions that are drawn: a test of a kind plays some, each a run of the program that follows from its kind and its number.

None is tried again: a program that loses a datagram now and then fails, and a machine that is busy only makes a session long."""

import concurrent.futures
import itertools
import os
import random
import socket
import subprocess
import threading
import time

from shared import program
from shared.case import ProgramTest
from shared.program import SETTINGS, check

AT_ONCE = 8  # sessions
EACH = 40  # sessions of a kind, where nothing else is said
ENDLESS = 300  # seconds after which a run is taken for one that doesn't end


def run(words, text="", environment=None):
    """What the program prints; it must end with status 0."""
    env = {**os.environ, **(environment or {})}
    ended = subprocess.run([program.path(), *words], input=text.encode(), capture_output=True, timeout=ENDLESS, env=env)
    check(ended.returncode == 0, "status %d, %r" % (ended.returncode, ended.stdout[-200:]))
    return ended.stdout.decode()


def own_port(ports=itertools.count(10_000 + os.getpid() % 5_000), lock=threading.Lock()):
    """A port that no other session takes: of those that the system doesn't choose."""
    with lock:
        for port in ports:
            with socket.socket(socket.AF_INET, socket.SOCK_DGRAM) as one:
                try:
                    one.bind(("127.0.0.1", port))
                    return port
                except OSError:
                    pass  # it is another's


def is_counted(line, found, front=(), turned=0):
    """Checks a line of counts where so many were found and nobody failed, and gives how many were asked and what stands behind.
    With `turned` None any number may be turned away."""
    given = line.split()
    wanted = [*front, "found", str(found), "asked", "", "failed", "0", "turned", ""]
    check(len(given) >= len(wanted), "counts %r" % line)
    for at in (len(front) + 3, *([len(wanted) - 1] if turned is None else [])):
        wanted[at] = given[at]
    wanted[-1] = wanted[-1] or str(turned)
    check(given[: len(wanted)] == wanted, "counts %r, wanted %r" % (line, wanted))
    asked = int(given[len(front) + 3])
    check(asked >= found, "counts %r" % line)
    return asked, given[len(wanted) :]


class Sessions(ProgramTest):
    """A test whose sessions are its parts, some at a time. What a session draws has its number, too."""

    def play(self, kind, each=EACH):
        """Plays `kind(draw)` for so many numbers, or for as long as the words of tests/run say."""
        name = kind.__name__
        for number, error in self.played(name, kind, SETTINGS.sessions or each):
            with self.subTest(seed=number):
                if error:
                    text = "%s: %s (tests/run ample ample_nodes -k %s --seed %d --sessions 1)"
                    raise AssertionError(text % (type(error).__name__, error, self._testMethodName, number)) from error

    def played(self, name, kind, each):
        """The number of each session, and what it failed by, or None."""
        until = time.monotonic() + 60 * SETTINGS.minutes if SETTINGS.minutes else None
        numbers = itertools.count(SETTINGS.seed or 0)
        with concurrent.futures.ThreadPoolExecutor(AT_ONCE) as pool:
            going = {}
            for count, number in enumerate(numbers):
                if count >= each if until is None else time.monotonic() > until:
                    break
                draw = random.Random("%s %d" % (name, number))
                draw.number = number
                going[pool.submit(kind, draw)] = number
                while len(going) >= 2 * AT_ONCE:
                    done, _ = concurrent.futures.wait(going, return_when=concurrent.futures.FIRST_COMPLETED)
                    yield from ((going.pop(one), one.exception()) for one in done)
            yield from ((number, one.exception()) for one, number in going.items())
