"""What a test of the program is a class of, and second tries.

A test whose failure may be the machine's says why by `@second_try(REASON)`: it is then tried once more, and tests/run counts it
and says it. Every other test has one try."""

import socket
import tempfile
import unittest

from shared import program
from shared.peers import Crowd, Peer

SECOND_TRIES = []  # of tests that passed so: the test, the reason, and what failed at first


def second_try(reason):
    """A test, or all of a class, that is tried once more for a reason that the machine has."""

    def marked(test):
        test.second_try = reason
        return test

    return marked


class Told(unittest.TestResult):
    """What a result is told of one test, so that another can be told of it."""

    def __init__(self):
        super().__init__()
        self.calls, self.failed = [], []

    def tell(self, result):
        for name, arguments in self.calls:
            getattr(result, name)(*arguments)

    def keep(self, name, *arguments):
        self.calls.append((name, arguments))

    def keep_failure(self, name, *arguments):
        self.keep(name, *arguments)
        self.failed.append(arguments[-1])

    def startTest(self, test):
        self.keep("startTest", test)

    def stopTest(self, test):
        self.keep("stopTest", test)

    def addSuccess(self, test):
        self.keep("addSuccess", test)

    def addSkip(self, test, why):
        self.keep("addSkip", test, why)

    def addFailure(self, test, error):
        self.keep_failure("addFailure", test, error)

    def addError(self, test, error):
        self.keep_failure("addError", test, error)

    def addSubTest(self, test, part, error):
        (self.keep if error is None else self.keep_failure)("addSubTest", test, part, error)


class ProgramTest(unittest.TestCase):
    """A test of the program at `self.program`. What it opens is closed at its end, whatever happens."""

    maxDiff = 4000

    @property
    def program(self):
        return program.path()

    def run(self, result=None):
        """As the library has it, with the second try; what an interrupted test has opened is closed, too."""
        reason = getattr(getattr(self, self._testMethodName), "second_try", getattr(type(self), "second_try", None))
        try:
            return super().run(result) if reason is None or result is None else self.run_twice(result, reason)
        except KeyboardInterrupt:
            self.doCleanups()
            raise

    def run_twice(self, result, reason):
        told = Told()
        super().run(told)
        if told.failed:
            first, told = told, Told()
            super().run(told)
            if not told.failed:
                SECOND_TRIES.append((self, reason, first.failed[0][1]))
        told.tell(result)
        return result

    def closed_at_the_end(self, thing):
        self.addCleanup(thing.close)
        return thing

    def peer(self, *words, **options):
        return self.closed_at_the_end(Peer(*words, **options))

    def crowd(self, play):
        return self.closed_at_the_end(Crowd(play))

    def server(self, *words, **options):
        return self.closed_at_the_end(program.Server(*words, **options))

    def socket(self, host="127.0.0.1", port=0):
        """A UDP socket of this address."""
        made = self.closed_at_the_end(socket.socket(socket.AF_INET, socket.SOCK_DGRAM))
        made.bind((host, port))
        return made

    def start(self, words, **options):
        """A child at work, whose input is to come."""
        child = program.start(words, **options)
        self.addCleanup(program.end, child)
        return child

    def folder(self):
        return self.enterContext(tempfile.TemporaryDirectory())

    def assertEnds(self, ended, status, out):
        """A run's status and its whole output, as text or bytes."""
        wanted = out if isinstance(out, bytes) else out.encode()
        if ended.status != status or ended.out != wanted:
            self.fail("wanted status %d, %r: %s" % (status, out, ended))

    def assertSays(self, said, *parts):
        """Standard error has each of these parts."""
        lacks = [part for part in parts if part not in said.stderr]
        self.assertFalse(lacks, "it lacks %r: %s" % (lacks, said))
