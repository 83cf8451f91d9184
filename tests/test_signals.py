"""Signals to the launcher, which end what it runs."""

import os
import shutil
import signal
import subprocess

from shared.case import ProgramTest
from shared.launcher import launcher, page
from shared.program import bound, free_port, until

ENDING = ("HUP", "INT", "QUIT", "USR1", "USR2", "PIPE", "ALRM", "TERM")
# Stands in for the kit: it runs a program, whose number it writes, and ends it when it is ended.
KIT = """#!/bin/sh
trap 'kill $child; exit 143' TERM
sleep 1000 &
child=$!
echo $child >"$PLACE"
wait
"""


class Signals(ProgramTest):
    def setUp(self):
        self.home = self.enterContext(launcher())
        self.words = [os.path.join(self.home, "nolzavirt")]

    def test_a_signal_to_the_launcher_ends_the_program(self):
        """A program that answers on when its launcher was ended, whichever signal did it."""
        kill = ["KILL"] if shutil.which("setpriv") else []
        for name in [*ENDING, *kill]:
            for command in ("serve", "node"):
                with self.subTest(name, command=command):
                    self.assertIsEnded(name, command)

    def assertIsEnded(self, name, command):
        port, number = free_port(), int(getattr(signal, "SIG" + name))
        more = ["--receives", "1000"] if command == "node" else []
        child = self.start([*self.words, command, "--bind", "127.0.0.1:%d" % port, *more], stdin=subprocess.DEVNULL)
        self.assertTrue(until(lambda: bound(port)), "it didn't begin")
        child.send_signal(number)
        out, _ = child.communicate(timeout=100)
        self.assertEqual((child.returncode, out), (-number if name == "KILL" else 128 + number, b""))
        self.assertTrue(until(lambda: not bound(port)), "it answers on")

    def test_a_signal_to_the_launcher_ends_an_unproved_run(self):
        """A kit, and the program below it, that go on when their launcher was ended. A script stands in for the kit."""
        with open(os.path.join(self.home, "rt"), "w") as file:
            file.write(KIT)
        os.chmod(file.name, 0o755)
        for name in ENDING:
            with self.subTest(name):
                self.assertEndsTheKit(name)

    def assertEndsTheKit(self, name):
        place, number = os.path.join(self.home, name), int(getattr(signal, "SIG" + name))
        env = {**os.environ, "PATH": self.home + ":" + os.environ["PATH"], "PLACE": place}
        quiet = dict.fromkeys(("stdin", "stdout", "stderr"), subprocess.DEVNULL)
        child = self.start([*self.words, "--unproved", "serve"], env=env, **quiet)
        self.assertTrue(until(lambda: os.path.exists(place) and os.path.getsize(place)), "the kit wasn't run")
        below = "/proc/%d" % int(page(place))
        self.assertTrue(until(lambda: page(below + "/comm") == "sleep\n"), "the kit didn't run what it runs")
        child.send_signal(number)
        self.assertEqual(child.wait(timeout=100), 128 + number)
        self.assertTrue(until(lambda: not os.path.exists(below)), "what the kit ran goes on")
