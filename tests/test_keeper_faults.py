"""What befalls a node that nolzavirt-keep keeps: kills, signals, full disks, damaged files and wrong folders."""

import contextlib
import os
import resource
import shutil
import signal
import subprocess
import time

from shared.case import second_try
from shared.keeper import FIRST, OWN_BY_STAND_IN, SAVED, KeeperTest, is_whole
from shared.messages import TARGET, identifier, line
from shared.program import until


def first_contacts(count):
    """So many of them, which all answer the stand-in."""
    return "".join(line(identifier(number + 1), "127.0.0.1", 7) for number in range(count))


class Kills(KeeperTest):
    @second_try("a machine that is busy may let all kills come before the table is written, or none")
    def test_a_kept_table_is_whole_whenever_it_is_killed(self):
        """A table that is written in its place, so that a kill leaves a part of it; a lock that a kill leaves behind."""
        kept = self.kept(bootstrap=first_contacts(40))
        began, changed = time.monotonic(), 0
        self.assertEqual(kept.run("--periods", "1").returncode, 0, "it doesn't keep the node")
        took = time.monotonic() - began
        for number in range(20):
            begun = len(kept.text("nodes"))
            kept.put("node/table", SAVED)
            child = kept.start("--period", "1", start_new_session=True)
            self.assertTrue(until(lambda: len(kept.text("nodes")) > begun), "no node began")
            time.sleep(took * number / 12)
            os.killpg(child.pid, signal.SIGKILL)
            _, error = child.communicate()
            table = kept.text("node/table")
            self.assertEqual(child.returncode, -signal.SIGKILL, error)
            self.assertTrue(is_whole(table), "after a kill: %r, table %r" % (error, table))
            changed += table.count("live ") == 40
        self.assertIn(changed, range(1, 20), "before so many of 20 kills the table was replaced")

    @second_try("a machine that is busy may take a second to end the script")
    def test_a_signal_to_a_keeper_ends_its_node(self):
        """A node, or a file, that is left when the script was ended; a table that is lost with it; an end that takes long."""
        for name, failing in (("TERM", ""), ("INT", ""), ("HUP", ""), ("TERM", "9"), ("KILL", "")):
            if name == "KILL" and not shutil.which("setpriv"):
                continue
            with self.subTest(name, failing=failing):
                self.assertEndsItsNode(name, failing)

    def assertEndsItsNode(self, name, failing):
        kept, number = self.kept(table=SAVED), int(getattr(signal, "SIG" + name))
        if failing:  # it then waits for the next period
            kept.put("node.status", failing)
        child = kept.start("--period", "1000")
        self.assertTrue(until(lambda: kept.text("nodes")), "no node began")
        node = int(kept.text("nodes"))
        self.assertTrue(until(lambda: not failing or kept.text("node/log")), "nothing in the log")
        time.sleep(0.05)
        began = time.monotonic()
        child.send_signal(number)
        child.communicate(timeout=100)
        took = time.monotonic() - began
        self.assertEqual(child.returncode, -number if name == "KILL" else 128 + number)
        self.assertLess(took, 1)
        self.assertTrue(until(lambda: not os.path.exists("/proc/%d" % node)), "the node goes on")
        self.assertEqual(kept.text("node/table"), SAVED)
        left = {one for one in os.listdir(kept.file("node")) if one.startswith(".") or one == "pid"}
        self.assertTrue(name == "KILL" or not left, "it left %r" % left)

    @second_try("a machine that is busy may take five seconds to start the script")
    def test_a_folder_has_one_keeper(self):
        """Two scripts on a folder; a folder that nobody may keep any more after a kill, with the system's locks or without."""
        for lacking in ([], ["flock", "setpriv"]):
            with self.subTest(lacking=lacking):
                self.assertHasOneKeeper(lacking)

    def assertHasOneKeeper(self, lacking):
        kept = self.kept()
        env = {"PATH": self.tools(kept, lacking)}
        first = kept.start("--period", "1000", env=env, start_new_session=True)
        self.assertTrue(until(lambda: kept.text("nodes")), "no node began")
        began = time.monotonic()
        said = kept.run(env=env)
        self.assertEqual(said.returncode, 75, said)
        self.assertLess(time.monotonic() - began, 5, said)
        self.assertSays(said, "another nolzavirt-keep keeps ")
        self.assertIsNone(first.poll(), "the second one hurt the first")
        self.assertTrue(os.path.exists(kept.file("node/.out")), "the second one hurt the first")
        os.killpg(first.pid, signal.SIGKILL)
        first.communicate()
        said = kept.run("--period", "1", "--periods", "1", env=env)
        self.assertEqual(said.returncode, 0, said)
        self.assertNotIn("pid", os.listdir(kept.file("node")), "it left its number")

    def tools(self, kept, lacking):
        """A folder with the system's tools, all but some."""
        tools = kept.file("tools")
        os.mkdir(tools)
        for folder in ("/bin", "/usr/bin"):
            for tool in os.listdir(folder):
                with contextlib.suppress(FileExistsError):
                    tool in lacking or os.symlink(os.path.join(folder, tool), os.path.join(tools, tool))
        return tools


class Disks(KeeperTest):
    def small_disk(self, folder):
        """Has a folder be on a disk of 64 KiB, and says whether this user may mount one."""
        words = ["mount", "-t", "tmpfs", "-o", "size=64k,mode=777", "tmpfs", folder]
        may = shutil.which("mount") and subprocess.call(words, stderr=subprocess.DEVNULL) == 0
        if may:
            self.addCleanup(subprocess.run, ["umount", "-l", folder], check=True)
        return may

    def fill(self, name):
        """Fills the disk on which the file is."""
        with open(name, "wb", buffering=0) as file, contextlib.suppress(OSError):
            while True:
                file.write(b"x" * 512)

    def test_a_full_disk_keeps_the_last_table(self):
        """A table that is lost, or cut, when the disk is full; a node that isn't kept on; a disk that is full at the start and isn't
        named."""
        kept = self.kept()
        is_small, filler = self.small_disk(kept.file("node")), kept.file("node/filler")
        kept.put("node/bootstrap", first_contacts(60))
        kept.put("node/options", "--bind 127.0.0.1:6999\n")
        kept.put("node/table", SAVED)
        kept.put("node/own", OWN_BY_STAND_IN + "\n")
        if is_small:
            self.fill(filler)
            said = kept.run("--periods", "1")
            self.assertEqual(said.returncode, 73, said)
            self.assertSays(said, "can't write into ", "free some of its disk")
            os.remove(filler)
            child = kept.start("--period", "6", "--periods", "3")
            self.assertTrue(until(lambda: kept.text("nodes")), "no node began")
            self.fill(filler)
        else:
            child = kept.start("--periods", "1", preexec_fn=lambda: resource.setrlimit(resource.RLIMIT_FSIZE, (2048, 2048)))
        has_next = lambda: len(kept.text("nodes").split()) > 1 or child.poll() is not None
        self.assertTrue(until(has_next), "no node after the first")
        self.assertEqual(kept.text("node/table"), SAVED)
        if is_small:
            os.remove(filler)
        _, error = child.communicate(timeout=100)
        self.assertEqual(child.returncode, 0, error)
        self.assertIn("the disk may be full", error)
        table = kept.text("node/table")
        self.assertTrue(table.count("live ") == 60 if is_small else table == SAVED, "the table is %r" % table)


class Files(KeeperTest):
    def test_a_damaged_table_is_kept_aside(self):
        """A table that was cut and is used, thrown away, or ends the script."""
        rows = {
            "cut": (SAVED[:-3], "", "it lacks its end"),
            "with more behind it": (SAVED + "x\n", "", "it"),
            "that the program refuses": (SAVED, "3", "bad line 3"),
        }
        for name, (table, refreshing, part) in rows.items():
            with self.subTest(name):
                self.assertIsKeptAside(table, refreshing, part)

    def assertIsKeptAside(self, table, refreshing, part):
        first = line(identifier(2), "127.0.0.1", 7)
        kept = self.kept(bootstrap=first, table=table)
        if refreshing:  # the program says so, once the node is at work
            kept.put("refresh.status", refreshing)
        said = kept.run("--periods", "1")
        self.assertEqual(said.returncode, 0, said)
        self.assertEqual(kept.text("node/table.bad"), table)
        self.assertSays(said, "table was damaged (" + part, "goes on from the bootstrap")
        wanted = [FIRST, first] if refreshing else [first]
        self.assertEqual(kept.text("inputs").splitlines(keepends=True)[:-1], wanted, "the input but for its last line")
        self.assertTrue(is_whole(kept.text("node/table")), "no new table")

    def test_a_keeper_says_why_it_does_not_begin(self):
        """A refusal that isn't named, or changes the folder."""
        kept = self.kept(own=OWN_BY_STAND_IN + "\n")
        wrong = (
            ("bootstrap", "x y z\n", "bootstrap, line 1: a first contact is "),
            ("bootstrap", "\n%s [::1]:7\n" % TARGET, "bootstrap, line 2: "),
            ("jobs", "find %s\n" % TARGET * 16, "jobs, line 16: there may be 15 lines find"),
            ("jobs", "announce %s 0\n" % TARGET, "jobs, line 1: a job is "),
            ("jobs", "announce %s 6881\nput 353a68656c6c6f\nput 00\n" % TARGET, "jobs, line 3: no node stores this value"),
            ("options", "--group %s\n" % ("ab" * 32), "options, line 1: give the key of a group by the variable NOLZAVIRT_GROUP"),
            ("options", "--own %s\n" % TARGET, "options, line 1: no option that may stand here"),
            ("options", "--bind 127.0.0.1\n", "options, line 1: --bind takes A.B.C.D:PORT"),
            ("own", "4\n", "own, line 1: one line has to be there"),
        )
        for name, text, part in wrong:
            with self.subTest(name, text=text):
                before = kept.text("node/" + name)
                kept.put("node/" + name, text)
                said = kept.run("--periods", "1")
                self.assertEqual(said.returncode, 3, said)
                self.assertSays(said, part)
                self.assertNotIn("ab" * 32, said.stderr, "it shows the key")
                os.remove(kept.file("node/" + name))
                if before:
                    kept.put("node/" + name, before)
        for more, part in ((["--period", "0"], "from 1 to 10080"), (["--period"], "from 1"), (["--peroid", "1"], "no word '--peroid'")):
            with self.subTest(words=more):
                self.assertEndsBy(kept.run(*more), 2, part)
        self.assertEqual(os.listdir(kept.file("node")), ["own"], "it left")
        self.assertNeeds(kept)

    def assertNeeds(self, kept):
        """Without a folder that it may write, or without the program, it says so."""
        os.chmod(kept.file("node"), 0o555)
        said = kept.run(**({"user": 65534} if os.geteuid() == 0 else {}))
        self.assertEndsBy(said, 73, "can't write into ", "let the user of this script write there")
        os.rename(kept.file("node"), kept.file("folder"))
        kept.put("node", "")
        self.assertEndsBy(kept.run(), 73, "can't make or enter the folder ")
        os.remove(kept.file("nolzavirt"))
        self.assertEndsBy(kept.run(), 70, "nolzavirt is missing", "--install DIR")
        shown = subprocess.run([kept.file("nolzavirt-keep"), "--help"], capture_output=True, text=True)
        self.assertEqual((shown.returncode, shown.stderr), (0, ""), shown)
        self.assertTrue(shown.stdout.startswith("usage: "), shown)

    def assertEndsBy(self, said, status, *parts):
        self.assertEqual(said.returncode, status, said)
        self.assertSays(said, *parts)
