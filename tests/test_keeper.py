"""A node that nolzavirt-keep keeps: its periods, its jobs and its bootstrap, with what stands for the program and with itself."""

import hashlib
import os
import shutil
import socket
import time

from shared.case import second_try
from shared.keeper import DEAD, FIRST, OWN_BY_STAND_IN, SAVED, SCRIPT, SHELLS, Kept, KeeperTest, is_whole
from shared.launcher import launch
from shared.messages import OWN, bdecode, bencode, gives, identifier, line, query
from shared.peers import answers
from shared.program import free_port, until


class Periods(KeeperTest):
    def test_a_kept_node_goes_on_from_its_table(self):
        """A period without the table of the one before, the bootstrap, a job or an option; jobs that are not counted; a shell in which the
        script doesn't run."""
        for shell in SHELLS:
            with self.subTest(" ".join(shell)):
                self.assertGoesOn(shell)

    def assertGoesOn(self, shell):
        key = "a".zfill(40)
        kept = self.kept(
            bootstrap="# first\n\n" + FIRST,
            options="--bind 127.0.0.1:6999\n--k 5\n--per-address 1\n--node-per-address 8\n--timeout 90\n",
            jobs="find %s\nannounce %s 6881\nput 353a68656c6c6f\n" % (key, key),
        )
        said = kept.run("--period", "3", "--periods", "3", shell=shell, env={"NOLZAVIRT_KEEP_MINUTE": "60"})
        self.assertEqual((said.returncode, said.stderr), (0, ""))
        own = kept.text("node/own").strip()
        self.assertEqual(own, OWN_BY_STAND_IN)
        self.assertEqual(kept.each("minutes"), ["1", "3", "3"])
        wanted = {"status": "0", "live": "1", "received": "7", "replied": "5", "found": "2", "announced": "1", "stored": "1"}
        self.assertEqual(kept.each(*wanted), [wanted] * 3, "the periods")
        self.assertEqual(kept.each("refresh"), ["-", "0", "0"])
        told = " --bind 127.0.0.1:6999 --k 5 --per-address 8 --timeout 90 --claim asked"
        for part in (
            "node --own %s --minutes 3 --receives 1000000000 --table yes%s" % (own, told),
            "refresh --all yes --timeout 90 --bind 127.0.0.1:0",
            "peers --key %s --announce 6881 --bind 127.0.0.1:0 --k 5 --per-address 1 --timeout 90 --claim asked" % key,
            "put --value 353a68656c6c6f --bind 127.0.0.1:0 --k 5 --per-address 1 --timeout 90 --claim asked",
        ):
            self.assertIn(part, kept.commands())
        one = FIRST.strip()
        wanted = [one, "find " + own, "find " + key] + 2 * [one, one, "find " + own, "find " + key]
        self.assertEqual(kept.inputs(), wanted, "the input")
        self.assertTrue(is_whole(kept.text("node/table")), kept.text("node/table"))
        self.assertEqual(sorted(os.listdir(kept.file("node"))), ["bootstrap", "jobs", "log", "options", "own", "table"], "it left")

    def test_a_kept_node_claims_what_it_asks(self):
        """A node, or a job that it leaves to a command, to which a name is a claim, unless options say so; one that is given both rules,
        or none."""
        for options, claim in (("", "asked"), ("--claim named\n", "named"), ("--claim asked\n", "asked")):
            with self.subTest(options=options):
                # The number makes the job a command's.
                options = "--bind 127.0.0.1:6999\n--per-address 1\n" + options
                kept = self.kept(bootstrap=FIRST, options=options, jobs="put 353a68656c6c6f\n")
                said = kept.run("--periods", "1", env={"NOLZAVIRT_KEEP_MINUTE": "60"})
                self.assertEqual((said.returncode, said.stderr), (0, ""))
                by_kind = {row.split()[0]: row.split() for row in kept.commands() if "--bind" in row or row.startswith("node ")}
                self.assertEqual(sorted(by_kind), ["node", "put"], "commands that look up")
                for words in by_kind.values():
                    self.assertEqual(words.count("--claim"), 1, words)
                    self.assertEqual(words[words.index("--claim") + 1], claim)

    def test_a_kept_node_under_puzzles_begins_with_its_bootstrap(self):
        """An input without the proofs of its nodes; a minted identifier without its key and X, or of which the node brings no proof; a
        key of a group that is shown."""
        proof = "%s %s" % ("5".zfill(64), "6".zfill(40))
        first = "%s 127.0.0.1:7 %s" % ("1".zfill(40), proof)
        kept = self.kept(bootstrap=first + "\nlocalhost:9\n", options="--c1 1\n--c2 2\n", table=SAVED)
        said = kept.run("--periods", "1", env={"NOLZAVIRT_GROUP": "ab" * 32})
        self.assertEqual(said.returncode, 0, said)
        self.assertEqual(kept.text("node/own"), "%s %s\n" % (OWN_BY_STAND_IN, proof))
        self.assertEqual(kept.inputs(), [first, "find " + OWN_BY_STAND_IN], "the input")
        words = kept.text("words")
        self.assertIn("mint --c1 1 --c2 2\n", words)
        self.assertNotIn("refresh", words)
        handed_on = "node --own %s --proof %s --minutes" % (OWN_BY_STAND_IN, proof.replace(" ", ","))
        self.assertIn(handed_on, words, "the proof isn't handed on")
        self.assertNotIn("ab" * 32, words + said.stderr + kept.text("node/log"), "the key is shown")
        self.assertSays(said, "HOST:PORT are left out: under puzzles")

    @second_try("a machine that is busy may make a period longer than its minutes")
    def test_a_keeper_tries_its_bootstrap_again_soon_and_not_at_once(self):
        """A node that stays alone for whole periods, or asks in a loop; a period that failed and isn't said; a dead node that is kept; a
        table that is thrown away when this machine's network is down."""
        kept = self.kept(bootstrap=line(identifier(1), "127.0.0.1", 9))
        said = kept.run("--period", "5", "--periods", "5")
        self.assertEqual(kept.each("minutes"), ["1", "2", "4", "5", "5"])
        self.assertEqual(said.returncode, 0, said)
        self.assertEqual(said.stderr.count("found nobody. The next one tries the bootstrap again"), 5, said)
        self.assertSays(said, "nobody of the table answers, so all of them are kept")
        kept.put("node.status", "7")
        # A pause is counted in whole seconds, so what is timed begins with one.
        time.sleep(1 - time.time() % 1)
        began = time.monotonic()
        said = kept.run("--period", "2", "--periods", "2")
        took = time.monotonic() - began
        self.assertGreater(took, 0.9, said)
        self.assertLess(took, 8, said)
        self.assertEqual(said.returncode, 0, said)
        self.assertSays(said, "ended with status 7: a million datagrams", "The next one begins 1 min after it did", "begins 2 min after")
        self.assertEqual(kept.each("status")[5:], ["7", "7"])
        os.remove(kept.file("node.status"))
        kept.put("node/bootstrap", "localhost:9\n")
        self.assertSays(kept.run("--periods", "1"), "they need Python 3 and ")
        kept.put("node/table", SAVED.replace("sibling", DEAD + "sibling"))
        kept.run("--periods", "1")
        self.assertEqual(kept.each("silent")[-1], "1", kept.text("node/table"))
        self.assertEqual(kept.text("node/table"), SAVED)


# A folder's lines `find`, `announce` and `put`, and those that its keeper hands on in their order.
FINDS = ["find " + "a".zfill(40), "find " + "b".zfill(40)]
ANNOUNCES = ["announce %040x %d" % (number, 9 if number in (3, 12) else 6881) for number in range(13)]
PUTS = ["put 693%d65" % number for number in range(7)]
JOBS = ANNOUNCES[:8] + FINDS + PUTS + ANNOUNCES[8:]
TOLD = ANNOUNCES[:8] + PUTS + ANNOUNCES[8:]


class Jobs(KeeperTest):
    def test_a_kept_node_does_fifteen_jobs_of_its_folder(self):
        """More lines than `node` takes; jobs that are left out, or done twice; a node that does them although the options want what it
        doesn't; jobs that nobody took and that aren't named."""
        for shell in SHELLS:
            for options, by_node in (
                ("--spread no\n--per-address 8\n--node-per-address 8\n", 13),
                ("--per-address 0\n", 13),
                ("--node-per-address 8\n", 0),
                ("--spread yes\n", 0),
            ):
                with self.subTest(" ".join(shell), options=options):
                    self.assertDoes(shell, options, by_node)

    def assertDoes(self, shell, options, by_node):
        """So many of the jobs are the node's, and the others those of commands."""
        jobs = "".join(job + "\n" for job in JOBS)
        kept = self.kept(bootstrap=FIRST, options="--bind 127.0.0.1:6999\n" + options, jobs=jobs)
        said = kept.run("--periods", "1", shell=shell, env={"NOLZAVIRT_KEEP_MINUTE": "60"})
        self.assertEqual(said.returncode, 0, said)
        self.assertEqual(kept.inputs(), [FIRST.strip(), "find " + OWN_BY_STAND_IN, *FINDS, *TOLD[:by_node]], "the input")
        words = [words.split() for words in kept.commands()]
        by_commands = ["announce %s %s" % (row[2], row[4]) for row in words if row[0] == "peers"]
        by_commands += ["put " + row[2] for row in words if row[0] == "put" and "--bind" in row]
        self.assertEqual(sorted(by_commands), sorted(TOLD[by_node:]), "what is done by commands")
        taken = 12 if by_node else 13  # the stand-in's `peers` is always taken
        wanted = {"found": "3", "announced": str(taken), "stored": "7"}
        self.assertEqual(kept.each(*wanted)[0], wanted, "the periods")
        unnamed = "" if not by_node else "nolzavirt-keep: nobody took '%s' in period 1.\n" % ANNOUNCES[3]
        self.assertEqual(said.stderr, unnamed)

    def test_a_changed_job_that_is_none_is_left_out(self):
        """A value that ends the node, once the script is at work."""
        kept = self.kept(bootstrap=FIRST, options="--bind 127.0.0.1:6999\n", jobs=PUTS[0] + "\n")
        child = kept.start("--period", "2", "--periods", "3")
        self.assertTrue(until(kept.periods), "no period ended")
        kept.put("node/jobs", "# changed\n%s\nput 00\n%s\n" % (ANNOUNCES[0], PUTS[1]))
        _, error = child.communicate(timeout=100)
        self.assertEqual(child.returncode, 0, error)
        self.assertIn("jobs, line 3: no node stores this value", error)
        self.assertEqual(kept.inputs()[-2:], [ANNOUNCES[0], PUTS[1]], "the input's end")
        self.assertNotIn("put 00", kept.text("inputs"))
        self.assertIn("lines of options, bootstrap or jobs are left out", kept.text("node/log"))


def pinged(child, port, meanwhile=lambda: None):
    """What a script says of whose node receives so many datagrams in a period, once it has ended."""
    ping = query(b"aa", b"ping", {b"id": identifier(7)}, read_only=True)
    end = time.monotonic() + 60
    with socket.socket(socket.AF_INET, socket.SOCK_DGRAM) as asker:
        while child.poll() is None and time.monotonic() < end:
            asker.sendto(ping, ("127.0.0.1", port))
            time.sleep(0.01)
            meanwhile()
    child.poll() is not None or child.terminate()
    return child.communicate(timeout=100)[1]


def token_for(source, key):
    return hashlib.sha1(repr(source).encode() + key).digest()[:8]


class Program(KeeperTest):
    """The script with the program itself."""

    @second_try("a machine that is busy may keep an answer back for 300 ms, and another program may take a free port")
    def test_a_kept_node_joins_once_its_bootstrap_answers(self):
        """A script that the program's own words, output or statuses don't fit, as it is installed; a node that never joins, if its
        bootstrap was dead at first."""
        port, peer_port, kept = free_port(), free_port(), self.closed_at_the_end(Kept())
        self.assertEqual(launch(["--install", kept.place]).returncode, 0, "not installed")
        kept.put("node/bootstrap", line(identifier(1), "127.0.0.1", peer_port))
        kept.put("node/options", "--bind 127.0.0.1:%d\n--timeout 300\n" % port)
        child = kept.start("--period", "2", "--periods", "4", env={"NOLZAVIRT_KEEP_RECEIVES": "30"})
        peers = []

        def bootstrap_answers_after_a_period():
            if not peers and kept.periods():
                peers.append(self.peer(identifier(1), "127.0.0.1", peer_port, answers))

        error = pinged(child, port, bootstrap_answers_after_a_period)
        self.assertEqual(child.returncode, 0, error)
        self.assertEqual(kept.each("status"), ["0"] * 4, error)
        found = kept.each("found")
        self.assertEqual((found[0], found[-1], kept.each("refresh")[-1]), ("0", "1", "0"), kept.periods())
        own, heard = kept.text("node/own").strip(), [bdecode(query) for query, _ in peers[0].heard]
        asked = {query[b"q"] for query in heard if query[b"a"][b"id"].hex() == own}
        self.assertLessEqual({b"ping", b"find_node"}, asked)
        self.assertIn("live %s 0\n" % peers[0].line().strip(), kept.text("node/table"))
        self.assertTrue(is_whole(kept.text("node/table")), kept.text("node/table"))

    @second_try("a machine that is busy may let a period end before its lookups do")
    def test_a_kept_node_tells_from_its_own_port(self):
        """Jobs that come from another port than the node's, once only, read-only or with the token of another; those beyond fifteen that
        nobody does; a value that no node takes, and that isn't named; one that the program refuses, and the script doesn't."""
        announces = [identifier(number << 80) for number in range(1, 12)]
        values = [bencode(b"value %02d" % number) for number in range(8)]
        keys = [hashlib.sha1(value).digest() for value in values]
        withheld, port = (keys[1], keys[7]), free_port()

        def gives_tokens(peer, query, source):
            method, arguments = (bdecode(query)[name] for name in (b"q", b"a"))
            key = arguments.get(b"info_hash", arguments.get(b"target"))
            if method in (b"get_peers", b"get") and key not in withheld:
                peer.socket.sendto(gives(query, peer.name, token=token_for(source, key)), source)
            else:
                answers(peer, query, source)

        peer = self.peer(play=gives_tokens)
        kept = self.beside_the_program(port, peer)
        self.assertRefuses(kept, peer)
        lines = ["put " + value.hex() for value in values[:6]] + ["announce %s 6882" % key.hex() for key in announces]
        lines += ["put " + value.hex() for value in values[6:]]
        kept.put("node/jobs", "".join(one + "\n" for one in lines))
        env = {"NOLZAVIRT_KEEP_RECEIVES": "60", "NOLZAVIRT_KEEP_MINUTE": "60"}
        child = kept.start("--period", "1", "--periods", "2", env=env)
        error = pinged(child, port)
        counts = {"status": "0", "found": "1", "announced": "11", "stored": "6"}
        self.assertEqual(kept.each(*counts), [counts] * 2, error)
        named = ["nolzavirt-keep: nobody took '%s' in period %d." % (lines[at], period) for period in (1, 2) for at in (18, 1)]
        self.assertEqual((child.returncode, sorted(error.splitlines())), (0, sorted(named)))
        own, other = self.told(peer, port)
        by_node = [key for key in keys[:6] + announces if key not in withheld][:14]
        wanted = [key for key in announces[9:] + keys[6:] if key not in withheld]
        self.assertEqual(own, by_node * 2, "what comes from the node's port")
        self.assertEqual(other, wanted * 2, "what comes from others")

    def beside_the_program(self, port, peer):
        kept = self.closed_at_the_end(Kept())
        shutil.copy(self.program, kept.file("nolzavirt"))
        shutil.copy(SCRIPT, kept.place)
        kept.put("node/own", OWN.hex() + "\n")
        kept.put("node/bootstrap", peer.line())
        kept.put("node/options", "--bind 127.0.0.1:%d\n--timeout 5000\n" % port)
        return kept

    def assertRefuses(self, kept, peer):
        """It doesn't begin with a value whose keys are in no order."""
        kept.put("node/jobs", "put 353a68656c6c6f\n\nput %s\n" % b"d1:bi1e1:ai1ee".hex())
        said = kept.run("--periods", "1", env={"NOLZAVIRT_KEEP_RECEIVES": "0"})
        self.assertEqual((said.returncode, peer.heard), (3, []), "it begins with a value that is none: %s" % said)
        self.assertSays(said, "jobs, line 3: no node stores this value")

    def told(self, peer, port):
        """The keys of which the peer was told from the node's port, and from others, each by its own token."""
        own, other = [], []
        for datagram, source in peer.heard:
            message = bdecode(datagram)
            if message[b"q"] not in (b"announce_peer", b"put"):
                continue
            arguments, is_own = message[b"a"], source[1] == port
            value = arguments.get(b"v")
            key = arguments[b"info_hash"] if value is None else hashlib.sha1(bencode(value)).digest()
            self.assertEqual(arguments[b"token"], token_for(source, key), "it tells by another token: %r" % message)
            self.assertTrue(value is not None or arguments[b"port"] == 6882, "it announces %r" % message)
            self.assertEqual((arguments[b"id"] == OWN, b"ro" in message), (is_own, not is_own), "from %r: %r" % (source, message))
            (own if is_own else other).append(key)
        return own, other
