"""What a person sees on a terminal while a command is at work, and what Ctrl-C ends. A pseudo-terminal stands for it."""

import contextlib
import fcntl
import importlib.machinery
import importlib.util
import os
import pty
import random
import re
import select
import socket
import subprocess
import sys
import termios
import time

from shared.case import ProgramTest, second_try
from shared.launcher import launcher, page
from shared.messages import TARGET, identifier, line
from shared.program import ROOT, until

sys.path.insert(0, os.path.join(ROOT, "tools"))
import shares  # noqa: E402

# Stands for the program: it waits and then prints what it may.
SLOW = "#!/bin/sh\ncat >/dev/null\nsleep 4.5\necho done\n"
# Stands for the kit: what it runs is in a session of its own, which it ends when it is ended, unless that is done twice.
KIT = """#!/usr/bin/env python3
import os, signal, subprocess, sys, time
signal.signal(signal.SIGTERM, lambda number, _: sys.exit(128 + number))
tool = subprocess.Popen(["sleep", "1000"], start_new_session=True)
with open(os.environ["PLACE"], "w") as file:
    file.write(str(tool.pid))
try:
    tool.wait()
finally:
    time.sleep(0.5)
    tool.kill()
"""
CLEARED = "\r\x1b[K"


class Terminal:
    """A child whose standard error, and what else is wanted, is a terminal; what it wrote there, and when."""

    def __init__(self, words, stdin=subprocess.DEVNULL, stdout=None, **options):
        self.here, there = pty.openpty()
        stdin = there if stdin is None else stdin
        begin = lambda: fcntl.ioctl(there, termios.TIOCSCTTY, 0)
        streams = {"stdin": stdin, "stdout": there if stdout is None else stdout, "stderr": there}
        self.child = subprocess.Popen(words, start_new_session=True, preexec_fn=begin, **streams, **options)
        os.close(there)
        self.began, self.text, self.first = time.monotonic(), "", None

    def read(self, seconds=60, stop=lambda text: False):
        """Reads what comes until its end, or until a text is there that will do."""
        end = time.monotonic() + seconds
        while time.monotonic() < end and not stop(self.text):
            if select.select([self.here], [], [], 0.1)[0]:
                with contextlib.suppress(OSError):
                    more = os.read(self.here, 65536).decode(errors="replace")
                    if more:
                        self.text += more
                        if self.first is None and "; Ctrl-C ends it" in self.text:
                            self.first = time.monotonic() - self.began
                        continue
                break
        return self.text

    def type(self, text):
        os.write(self.here, text)

    def end(self):
        """The status, and all that was written."""
        text = self.read()
        return self.child.wait(timeout=100), text

    def close(self):
        if self.child.poll() is None:
            self.child.kill()
            self.child.wait()
        os.close(self.here)


class TerminalTest(ProgramTest):
    def setUp(self):
        self.home = self.enterContext(launcher())
        self.launcher = os.path.join(self.home, "nolzavirt")

    def program_is(self, text):
        program = os.path.join(self.home, "crates/node_main/out/node_main")
        os.remove(program)
        with open(program, "w") as file:
            file.write(text)
        os.chmod(program, 0o755)

    def terminal(self, *words, **options):
        return self.closed_at_the_end(Terminal([self.launcher, *words], **options))

    def kit_is(self, text):
        with open(os.path.join(self.home, "rt"), "w") as file:
            file.write(text)
        os.chmod(file.name, 0o755)
        self.mark = os.path.join(self.home, "mark")
        return {**os.environ, "PATH": self.home + ":" + os.environ["PATH"], "PLACE": self.mark}


def drawn(text):
    """The lines that were drawn, each over the one before."""
    return re.findall(r"\r(nolzavirt: [^\r\x1b]*)\x1b\[K(?=\r)", text)


class Waiting(TerminalTest):
    def test_a_command_says_what_it_waits_for(self):
        """A command of which a person doesn't know whether it is at work, how long it may take or how it is ended; a line that stays, or
        stands in the output."""
        self.program_is(SLOW)
        live = "live %s 127.0.0.1:9 0\n"
        rows = "row -\n" + live % ("1" * 40) + live % ("2" * 40) + "row -\n" + live % ("3" * 40)
        file = self.file("table %s 8 1\n%send\n" % (TARGET, rows))
        for words, stdin, part in (
            (["lookup", "--target", TARGET], None, r"waits for answers, \d s of 512 s at most; Ctrl-C ends it"),
            (["get", "--key", TARGET, "--timeout", "500"], None, r"waits for answers, \d s of 128 s at most"),
            (["refresh", "--all", "yes"], file, r"waits for answers, \d s of 12 s at most; Ctrl-C ends it"),
            (["refresh", "--timeout", "5000"], file, r"waits for answers, \d s of 20 s at most; Ctrl-C ends it"),
            (["mint", "--tries", "16777216"], None, r"tries keys since \d\d:\d\d:\d\d, \d s of some 34 s at most; Ctrl-C"),
            (["sim"], None, r"simulates since \d\d:\d\d:\d\d, \d s of a few s at most; Ctrl-C ends it"),
        ):
            with self.subTest(words[0]):
                options = {"stdin": open(stdin, "rb")} if stdin else {}
                terminal = self.terminal(*words, **options)
                status, text = terminal.end()
                self.assertEqual(status, 0, text)
                lines = drawn(text)
                self.assertIn(len(lines), range(2, 6), text)
                self.assertEqual([one for one in lines if not re.search(part, one)], [])
                self.assertEqual(len(set(lines)), len(lines), "it isn't renewed")
                self.assertGreater(terminal.first, 1.9)
                self.assertTrue(text.endswith(CLEARED + "done\r\n"), text)

    def file(self, text):
        with open(os.path.join(self.folder(), "input"), "w") as file:
            file.write(text)
        return file.name

    def test_there_is_no_line_elsewhere(self):
        """A line in a file or a pipe; one of a command that says at its beginning what it does, or that is soon over."""
        self.program_is(SLOW)
        said = subprocess.run([self.launcher, "sim"], stdin=subprocess.DEVNULL, capture_output=True, text=True)
        self.assertEqual((said.returncode, said.stdout, said.stderr), (0, "done\n", ""), said)
        self.program_is(SLOW.replace("4.5", "1"))
        for words in (["sim"], ["lookup", "--target", TARGET]):
            with self.subTest(words[0]):
                status, text = self.terminal(*words).end()
                self.assertEqual((status, drawn(text)), (0, []), text)
                self.assertTrue(text.endswith("done\r\n"), text)

    def test_there_is_no_line_while_the_input_is_typed(self):
        """A line over what a person types."""
        self.program_is(SLOW)
        terminal = self.terminal("lookup", "--target", TARGET, stdin=None)
        terminal.read(4)
        self.assertEqual(drawn(terminal.text), [])
        terminal.type(line(identifier(1), "127.0.0.1", 9).encode() + b"\x04")
        status, text = terminal.end()
        self.assertEqual(status, 0, text)
        self.assertGreaterEqual(len(drawn(text)), 2, text)

    def test_an_output_that_is_no_terminal_has_no_line(self):
        """A line, or what clears it, in a file."""
        self.program_is(SLOW)
        with open(os.path.join(self.folder(), "output"), "w+b") as file:
            status, text = self.terminal("sim", stdout=file).end()
            file.seek(0)
            self.assertEqual((status, file.read()), (0, b"done\n"))
        self.assertGreaterEqual(len(drawn(text)), 2, text)
        self.assertTrue(text.endswith(CLEARED), text)

    def test_a_lookup_prints_its_result_below_no_line(self):
        """The true program's output on a terminal, changed or behind another line."""
        with socket.socket(socket.AF_INET, socket.SOCK_DGRAM) as silent:
            silent.bind(("127.0.0.1", 0))
            file = self.file(line(identifier(1), "127.0.0.1", silent.getsockname()[1]))
            words = ["lookup", "--target", TARGET, "--timeout", "3500"]
            status, text = self.terminal(*words, stdin=open(file, "rb")).end()
        self.assertEqual(status, 0, text)
        self.assertGreaterEqual(len(drawn(text)), 1, text)
        self.assertTrue(text.endswith(CLEARED + "found 0 asked 1 failed 1 turned 0\r\n"), text)

    def test_a_run_without_proofs_says_that_it_compiles(self):
        """A minute in which a person sees nothing."""
        environment = self.kit_is("#!/bin/sh\nsleep 3.5\necho found\necho 'run=ended status=0' >&2\n")
        status, text = self.terminal("--unproved", "sim", env=environment).end()
        self.assertEqual(status, 0, text)
        lines = drawn(text)
        self.assertGreaterEqual(len(lines), 1, text)
        self.assertIn("compiles %d crates unproved, 2 s of 60 to 120 s; Ctrl-C ends it" % len(shares.built()), lines[0])
        self.assertTrue(text.endswith(CLEARED + "found\r\n"), text)


class Interrupts(TerminalTest):
    def test_ctrl_c_ends_the_command_and_its_line(self):
        """A program, or a line that is drawn again, that goes on behind Ctrl-C."""
        self.program_is("#!/bin/sh\necho $$ >'%s/pid'\nexec sleep 1000\n" % self.home)
        for command in (["sim"], ["lookup", "--target", TARGET]):
            with self.subTest(command[0]):
                terminal = self.terminal(*command)
                terminal.read(20, drawn)
                terminal.type(b"\x03")
                status, text = terminal.end()
                self.assertEqual(status, 130, text)
                self.assertTrue(text.endswith(CLEARED), text)
                below = "/proc/%d" % int(page(os.path.join(self.home, "pid")))
                self.assertTrue(until(lambda: not os.path.exists(below)), "the program goes on")

    @second_try("a machine that is busy may begin the kit late")
    def test_ctrl_c_ends_the_compiler_of_an_unproved_run(self):
        """A compiler that goes on for a minute when its run was ended, since the kit was told to end it, and then told again."""
        environment = self.kit_is(KIT)
        for number in range(20):
            with self.subTest(number):
                terminal = self.terminal("--unproved", "sim", env=environment)
                self.assertTrue(until(lambda: os.path.exists(self.mark) and page(self.mark)), "the kit wasn't run")
                below = "/proc/%d" % int(page(self.mark))
                self.assertTrue(os.path.exists(below), "the kit runs nothing")
                terminal.type(b"\x03")
                status, text = terminal.end()
                self.assertEqual(status, 130, text)
                self.assertTrue(until(lambda: not os.path.exists(below), 2), "what the kit ran goes on")
                os.remove(self.mark)


def build_progress():
    """The script that says how far a build is, as a module."""
    loader = importlib.machinery.SourceFileLoader("build_progress", os.path.join(ROOT, "tools", "build_progress"))
    made = importlib.util.module_from_spec(importlib.util.spec_from_loader("build_progress", loader))
    loader.exec_module(made)
    return made


class Quiet:
    """Stands for the screen of a build."""

    def show(self, is_crate=False):
        pass


class FirstBuild(ProgramTest):
    """What the first build says of its time, on machines that are drawn: how much slower each is than the one that was measured,
    and by how much each crate differs from that."""

    STEP, LINKING = 10, 45

    def setUp(self):
        self.uses = shares.built()
        self.known = shares.shares(self.uses)
        self.now = 0.0
        self.progress = build_progress().Progress(self.uses, self.known, 4, kept=lambda _: False, clock=lambda: self.now)

    def build(self, seconds):
        """Goes through a build of crates that take so many seconds each; gives the moments and the seconds left that are said."""
        behind = shares.after(self.uses, {name: share.seconds for name, share in self.known.items()})
        left, begun, said = dict(seconds), set(), []
        while left:
            ready = [name for name in left if not any(below in left for below in self.uses[name])]
            now = sorted(ready, key=lambda name: (name not in begun, -behind[name]))[:4]
            for name in now:
                if name not in begun:
                    begun.add(name)
                    self.progress.note(name, 0)
                left[name] -= self.STEP * min(1.05, 3.6 / len(now))
            self.now += self.STEP
            for name in now:
                if left[name] <= 0:
                    del left[name]
                    self.progress.note(name, 1)
            said.append((self.now, self.progress.seconds_left()))
        return said

    def test_the_time_left_is_never_far_off(self):
        """A time left that is more than a third wrong, and a minute, after five minutes, on a machine that is quicker or slower than the
        one that was measured; one that forgets how slow the machine is while one long crate is proved."""
        for slower in (0.5, 1, 2, 3):
            for seed in (1, 2):
                with self.subTest(slower, seed=seed):
                    self.setUp()
                    drawn_by = random.Random(seed)
                    seconds = {name: self.known[name].seconds * slower * drawn_by.uniform(0.85, 1.15) for name in self.uses}
                    said = self.build(seconds)
                    end = self.now + self.LINKING * slower
                    late = [(at, left, end - at) for at, left in said if at >= 300]
                    wrong = [row for row in late if abs(row[1] - row[2]) > row[2] / 3 + 60]
                    self.assertGreater(len(late), 30)
                    self.assertEqual(wrong, [], "the moment, the seconds left that were said, and the true ones")

    def test_the_number_of_functions_does_not_grow(self):
        """A number of functions that grows while they are checked, so that the end goes away."""
        script = build_progress()
        kept = self.uses.keys() - set(list(self.uses)[5:])
        progress = script.Progress(self.uses, self.known, 4, kept=lambda name: name in kept, clock=lambda: self.now)
        totals, checked = set(), []
        for name in self.uses:
            functions = self.known[name].functions + 40
            for count in (0, functions // 2, functions):
                script.take("so far: %d of %d functions checked" % (count, functions), name, progress, Quiet())
                self.now += 1
                now = re.search(r" of (\d+) crates proved.* (\d+) of (\d+) functions checked", progress.line())
                totals.add((now[1], now[3]))
                checked.append(int(now[2]))
            script.take("logic=proved", name, progress, Quiet())
        wanted = sum(self.known[name].functions for name in self.uses if name not in kept)
        self.assertEqual(totals, {(str(len(self.uses) - 5), str(wanted))})
        self.assertEqual(checked, sorted(checked))
        self.assertRegex(progress.line(), r" %d of %d functions checked" % (wanted, wanted))
