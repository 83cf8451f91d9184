"""Has each allocation of a run fail in turn, and shows that the run then gives its answer, or says that there was no memory.

The program is the built one, and not rebuilt: a library that is loaded before the C library fails the Nth call of malloc,
calloc or realloc, with N from 1 on until a run has no such call. Each run has to end with status 0 and the case's output, or
with status 9 and the one line 'no memory', and to write nothing else; and there are as many calls as the case says, and as
many of them while two threads are at work. Each test prints a row of a table. They take some 30 seconds."""

import hashlib
import os
import re
import signal
import socket
import subprocess
import tempfile
import threading
import time

from shared import program
from shared.case import ProgramTest
from shared.messages import answer, asks, bdecode, bencode, counts, find, found, gives, identifier, line, query, record
from shared.peers import answers
from shared.program import bound, free_port, state
from shared.rows import row

# glibc has these names for its own calls, so the library needs neither a header nor a look-up. Descriptor 3 is told of each
# call by a letter, 'm' of the first thread and 't' of another, a capital where the call fails. Once there is a second thread a
# call first waits until the other has made one behind its own last one, so that both are at work at once; but only some two
# milliseconds, since the other may have ended.
FAILING = r"""
extern void *__libc_malloc(unsigned long), *__libc_calloc(unsigned long, unsigned long);
extern void *__libc_realloc(void *, unsigned long);
extern char __libc_single_threaded;
extern char *getenv(const char *);
extern long write(int, const void *, unsigned long);
extern long strtol(const char *, char **, int);
extern int usleep(unsigned);
extern unsigned long pthread_self(void);
extern int *__errno_location(void);

static unsigned long first; /* the first thread */
static long calls, failing;
static long made[2], seen[2]; /* the calls of the first thread and of others, and what each saw of the other's */

__attribute__((constructor)) static void begin(void) {
    failing = strtol(getenv("FAILING_CALL"), 0, 10);
    first = pthread_self();
}

/* Whether this call is to fail. */
static int fails(void) {
    if (first == 0)
        return 0;
    int other = pthread_self() != first;
    for (int i = 0; i < 20 && !__libc_single_threaded && __atomic_load_n(&made[!other], __ATOMIC_SEQ_CST) == seen[other]; i++)
        usleep(50);
    int is = __atomic_add_fetch(&calls, 1, __ATOMIC_SEQ_CST) == failing;
    write(3, &"mtMT"[2 * is + other], 1);
    seen[other] = __atomic_load_n(&made[!other], __ATOMIC_SEQ_CST);
    __atomic_add_fetch(&made[other], 1, __ATOMIC_SEQ_CST);
    if (is)
        *__errno_location() = 12; /* ENOMEM, on which the making of a thread relies */
    return is;
}

void *malloc(unsigned long n) { return fails() ? 0 : __libc_malloc(n); }
void *calloc(unsigned long n, unsigned long m) { return fails() ? 0 : __libc_calloc(n, m); }
void *realloc(void *p, unsigned long n) { return fails() ? 0 : __libc_realloc(p, n); }
"""


# Identifiers, keys and X of the seeds of 32 bytes 00, 01 and 02, for puzzles of 0 and 8 bits.
MINTED = [
    tuple(map(bytes.fromhex, words.split()))
    for words in (
        "c27d85cec2a31b5c03e13af0dbac44b20e0a9112"
        " 76b8e0ada0f13d90405d6ae55386bd28bdd219b8a08ded1aa836efcc8b770dc7"
        " 0000000000000000000000000000000000000024",
        "f8b36afaa82efdb7239884a0296c9e209db1c4b0"
        " 023f37203a2476c42566a61cc55c3ca875dbb4cc41c0deb789f8e7bf88183638"
        " 0000000000000000000000000000000000000067",
        "a3f8d018d15eae79bd519fbef98c5e3cfb23369e"
        " f6a12ca8ffc30a66ca140ccc7276336115819361186d3f535dd99f8eaaca8fce"
        " 00000000000000000000000000000000000000c5",
    )
]
OWN = ["--own", "ff" * 20, "--timeout", "20000"]
HEADING = "| Case | Allocations | While two threads are at work | Ended with the answer | Ended with `no memory` |"


class Case:
    """The words, the input, the output with status 0, how many allocations it has (from the least to the most, where that
    depends on which answers come in one round), what is played beside a running child, and how many allocations are made while
    two of its threads are at work. What is played may give a text of what was wrong."""

    def __init__(self, name, words, text, output, allocations, play=None, at_once=range(1)):
        self.name, self.words, self.text, self.output = name, words, text, output
        self.allocations, self.play, self.at_once = allocations, play, at_once

    def run(self, library, n):
        """The status, the output, the standard error with what was wrong beside it, and the letters of all calls."""
        told, tells = os.pipe()
        environment = {**os.environ, "LD_PRELOAD": library, "FAILING_CALL": str(n)}
        child = program.start(
            [program.path(), *self.words],
            stderr=subprocess.PIPE,
            env=environment,
            preexec_fn=lambda: os.dup2(tells, 3),
            close_fds=False,
        )
        wrong = []
        played = threading.Thread(target=lambda: wrong.append(self.play and self.play(child)), daemon=True)
        played.start()
        out, err = child.communicate(self.text.encode(), timeout=100)
        played.join()
        os.close(tells)
        letters = os.read(told, 65536).decode()
        os.close(told)
        beside = (wrong[0] or "") if wrong else "what was played broke off"
        return child.returncode, out.decode(), err.decode() + beside, letters


def fails_at_once(letters):
    """Whether the call that fails is made while two threads are at work."""
    other = re.search("[tT].*[tT]", letters)
    return bool(other and re.search("[mM]", other[0]) and re.search("[MT]", other[0]))


class Tries:
    """A case that is tried with no failing call and then with each: how many ended which way, how many failed while two threads
    were at work, and what was wrong."""

    def __init__(self, case, library):
        self.case, self.library = case, library
        self.answered = self.wanting = self.at_once = 0
        self.wrong = []
        n = 0
        while len(self.wrong) < 5 and self.goes_on(n):
            n += 1
        if not self.wrong and self.made() not in case.allocations:
            self.wrong.append("%d allocations, and not %r" % (self.made(), case.allocations))
        if not self.wrong and self.at_once not in case.at_once:
            self.wrong.append("%d allocations while two threads are at work, and not %r" % (self.at_once, case.at_once))

    def made(self):
        return self.answered + self.wanting + len(self.wrong)

    def goes_on(self, n):
        """Tries it with the call that fails, of which 0 is none; whether there may be one more."""
        status, out, err, letters = self.case.run(self.library, n)
        failed = letters != letters.lower()
        is_answer = (status, out, err) == (0, self.case.output, "")
        self.at_once += fails_at_once(letters)
        if n > 0 and not failed:
            if not is_answer:
                self.wrong.append("with every call: status %d, %r, %r" % (status, out, err))
            return False
        if n > 0 and (status, out, err) == (9, "no memory\n", ""):
            self.wanting += 1
        elif is_answer:
            self.answered += n > 0
        else:
            self.wrong.append("where call %d fails: status %d, %r, %r" % (n, status, out, err))
            return n > 0
        return True

    def show(self):
        row(HEADING, "| %s | %d | %d | %d | %d |" % (self.case.name, self.made(), self.at_once, self.answered, self.wanting))


class FailingTest(ProgramTest):
    """A test whose case is tried with each allocation failing."""

    @classmethod
    def setUpClass(cls):
        cls.library = program.library(FAILING, cls.enterClassContext(tempfile.TemporaryDirectory()))

    def assertSaysSo(self, case):
        tries = Tries(case, self.library)
        tries.show()
        if tries.wrong:
            self.fail("; ".join(tries.wrong))

    def udp(self, timeout=0.02):
        """A socket on loopback."""
        made = self.closed_at_the_end(socket.socket(socket.AF_INET, socket.SOCK_DGRAM))
        made.bind(("127.0.0.1", 0))
        made.settimeout(timeout)
        return made


class RunsThatEnd(FailingTest):
    """Allocations whose failure isn't said, or that are made where none is needed, in runs that end by themselves."""

    def test_a_lookup_on_one_path(self):
        """A failed allocation of a lookup on one path that isn't said: contact 1 names contact 2, and contact 2 names contact 3."""

        def names_it(peer, query, source):
            other = peers[peers.index(peer) + 1]
            peer.socket.sendto(answer(query, peer.name, record(other.name, other.host, other.port)), source)

        peers = [self.peer(identifier(n), play=names_it) for n in (1, 2)] + [self.peer(identifier(3), play=answers)]
        words = ["lookup", "--target", "00" * 20, "--paths", "1", *OWN]
        output = found(*(p.line() for p in peers), asked=3)
        self.assertSaysSo(Case("lookup, one path", words, peers[0].line(), output, range(93, 94)))

    def test_a_lookup_on_two_paths(self):
        """A failed allocation of a lookup on two paths that isn't said: both begin with a contact that names a third."""
        third = self.peer(identifier(3), play=answers)

        def names_it(peer, query, source):
            peer.socket.sendto(answer(query, peer.name, record(third.name, third.host, third.port)), source)

        begin = [self.peer(identifier(n), play=names_it) for n in (1, 2)]
        words = ["lookup", "--target", "00" * 20, "--paths", "2", *OWN]
        output = found(*(p.line() for p in begin + [third]), asked=3)
        text = "".join(p.line() for p in begin)
        self.assertSaysSo(Case("lookup, two paths", words, text, output, range(96, 104)))

    def test_a_lookup_whose_answer_has_proofs(self):
        """A failed allocation that isn't said where answers have proofs: the second and the third minted node begin, and the third
        names the first with a wrong key and with its own."""
        first, second, third = MINTED
        named = self.peer(first[0], play=answers)

        def proved(key):
            at = record(first[0], named.host, named.port)
            return at[:20] + key + first[2] + at[20:]

        def names_it(peer, query, source):
            reports = proved(b"\x77" + first[1][1:]) + proved(first[1])
            peer.socket.sendto(gives(query, peer.name, snodes=reports), source)

        peers = [self.peer(third[0], play=names_it), named, self.peer(second[0], play=answers)]
        words = ["lookup", "--target", "00" * 20, "--paths", "2", "--c2", "8", *OWN]
        text = proved_line(peers[0], third) + proved_line(peers[2], second)
        output = found(*(p.line() for p in peers), asked=3)
        self.assertSaysSo(Case("lookup, an answer with puzzles", words, text, output, range(105, 115)))

    def test_peers_that_announce(self):
        """A failed allocation that isn't said where a contact gives a token and two peers, and is told of a port."""

        def says(peer, query, source):
            if bdecode(query)[b"q"] == b"get_peers":
                values = [b"\x7f\0\0\x01\x1a\xe1", b"\x0a\0\0\x09\0\x01"]
                peer.socket.sendto(gives(query, peer.name, token=b"aoeusnth", values=values), source)

        peer = self.peer(play=says)
        words = ["peers", "--key", "00" * 20, "--paths", "1", "--announce", "6882", *OWN]
        output = "10.0.0.9:1\n127.0.0.1:6881\npeers 2 found 1 asked 1 failed 0 turned 0 announced 1\n"
        self.assertSaysSo(Case("peers --announce", words, peer.line(), output, range(111, 112)))

    def test_a_mint(self):
        """A failed allocation that isn't said where the 198th X solves."""
        third = MINTED[2]
        words = ["mint", "--c2", "8", "--tries", "198", "--seed", "02" * 32]
        output = " ".join(part.hex() for part in third) + "\n"
        self.assertSaysSo(Case("mint", words, "", output, range(48, 49)))

    def test_a_check(self):
        """A failed allocation that isn't said where a line has no proof and another has one that solves."""
        first = MINTED[0]
        proof = "%s %s" % (first[1].hex(), first[2].hex())
        text = "%s 127.0.0.1:6001\n\n# a comment\n%s 127.0.0.1:6002 %s\n" % ("01" * 20, first[0].hex(), proof)
        self.assertSaysSo(Case("check", ["check", "--c2", "8"], text, "fail\npass\npassed 1 of 2\n", range(27, 28)))

    def test_a_table(self):
        """A failed allocation that isn't said in a table of buckets of one: it splits, and keeps a spare. The text was written by
        hand."""
        nodes = [(1 << bit, "127.0.0.1:%d" % port) for bit, port in ((0, 6001), (159, 6002), (158, 6003))]
        first, second, third = ("%040x %s" % node for node in nodes)
        rows = "row 0\nlive %s 0\nspare %s\nrow 1\nlive %s 0\n" % (first, third, second)
        siblings = "sibling %s\nsibling %s\nsibling %s\nend\n" % (second, third, first)
        words = ["table", "--own", "ff" * 20, "--k", "1"]
        text = "".join("%s\n" % line for line in (first, second, third))
        output = "table %s 1 1\n" % ("ff" * 20) + rows + siblings
        self.assertSaysSo(Case("table", words, text, output, range(55, 56)))

    def test_a_refresh(self):
        """A failed allocation that isn't said where a saved table has one contact, which answers and so stays."""
        line = self.peer(play=answers).line().strip()
        text = "table %s 8 1\nrow -\nlive %s 0\nsibling %s\nend\n" % ("ff" * 20, line, line)
        self.assertSaysSo(Case("refresh", ["refresh", "--timeout", "20000"], text, text, range(43, 44)))

    def test_a_simulation(self):
        """A failed allocation that isn't said among 500 nodes in memory. The line was computed by another program."""
        words = ["sim", "--nodes", "500", "--hostile", "6", "--paths", "1", "--k", "8", "--seed", "00" * 32]
        output = "found 8 asked 12 failed 2 turned 0 honest 8\n"
        self.assertSaysSo(Case("sim, 500 nodes", words, "", output, range(193, 194)))


def proved_line(peer, proof):
    return "%s %s %s\n" % (peer.line().strip(), proof[1].hex(), proof[2].hex())


def came(child, socket):
    """What comes to a socket, and from where; None once the child has ended and nothing is there."""
    while True:
        ended = child.poll() is not None
        try:
            return socket.recvfrom(65536)
        except OSError:
            if ended:
                return None


class NodesThatAnswer(FailingTest):
    """The same in nodes that answer, and look up meanwhile."""

    def test_a_node_that_looks_up_and_answers(self):
        """A failed allocation that isn't said where a node looks for one identifier: its contact answers once a stranger has its
        own reply. That names the contact."""
        contact, stranger = self.udp(), self.udp()
        name, port = identifier(1), contact.getsockname()[1]

        def play(child):
            asked = came(child, contact)
            if asked is None:
                return None
            query = asks(b"find_node", target=bytes(20))
            stranger.sendto(query, asked[1])
            replied = came(child, stranger)
            if replied is None:
                return None
            contact.sendto(answer(asked[0], name), asked[1])
            wanted = gives(query, b"\xff" * 20, nodes=record(name, "127.0.0.1", port))
            return None if replied[0] == wanted else "the reply is %r" % replied[0]

        begins = line(name, "127.0.0.1", port)
        words = ["node", "--paths", "1", *OWN]
        output = find(bytes(20)) + found(begins, asked=1) + "received 2 replied 1\n"
        text = begins + find(bytes(20))
        self.assertSaysSo(Case("node: one lookup, one query answered", words, text, output, range(106, 107), play))

    def test_a_node_with_a_line_of_each_kind(self):
        """A failed allocation that isn't said in a node with five jobs: its contact answers once all have asked, gives each a
        token, and is then told of a port and given a value, by the token of each of the two jobs."""
        contact = self.udp()
        name, port, own = identifier(1), contact.getsockname()[1], b"\xff" * 20
        held, put = (hashlib.sha1(bencode(text)).digest() for text in (b"held", b"put"))
        peers = [b"\x7f\0\0\x01\x1a\xe1", b"\x0a\0\0\x09\0\x01"]
        answers_in_turn = (
            {"nodes": record(name, "127.0.0.1", port)},
            {"token": b"token 1", "values": peers},
            {"token": b"token 2", "values": peers[:1]},
            {"token": b"token 3", "v": b"held"},
            {"token": b"token 4"},
        )
        announced = {b"id": own, b"info_hash": bytes(20), b"port": 6882, b"token": b"token 2"}
        stored = {b"id": own, b"token": b"token 4", b"v": b"put"}

        def play(child):
            asked, told = [], []
            while (one := came(child, contact)) is not None:
                said = bdecode(one[0])
                if said[b"q"] in (b"announce_peer", b"put"):
                    told.append((said[b"q"], said[b"a"], b"ro" in said))
                else:
                    asked.append(one)
                if len(asked) == len(answers_in_turn) and said[b"q"] == b"get":
                    for (text, source), more in zip(asked, answers_in_turn):
                        contact.sendto(gives(text, name, **more), source)
            wanted = [(b"announce_peer", announced, False), (b"put", stored, False)]
            return None if told == (wanted if child.returncode == 0 else wanted[: len(told)]) else "it was told %r" % told

        begins, key = line(name, "127.0.0.1", port), "00" * 20
        lines = ("find " + key, "peers " + key, "announce %s 6882" % key, "get " + held.hex(), "put " + bencode(b"put").hex())
        one = counts(1, asked=1)
        output = "%s\n%s%s\n" % (lines[0], begins, one)
        output += "%s\n10.0.0.9:1\n127.0.0.1:6881\npeers 2 %s announced 0\n" % (lines[1], one)
        output += "%s\n127.0.0.1:6881\npeers 1 %s announced 1\n" % (lines[2], one)
        output += "%s\nvalue %s\n%s\n" % (lines[3], bencode(b"held").hex(), one)
        output += "put %s\nkey %s\n%s stored 1\nreceived 5 replied 0\n" % (put.hex(), put.hex(), one)
        text = begins + "".join("%s\n" % line for line in lines)
        words = ["node", "--paths", "1", *OWN]
        self.assertSaysSo(Case("node: a line of each kind", words, text, output, range(266, 267), play))

    def served(self, workers, receives, allocations):
        port = free_port()

        def play(child):
            while not bound(port) and child.poll() is None:
                time.sleep(0.002)
            with socket.socket(socket.AF_INET, socket.SOCK_DGRAM) as peer:
                peer.settimeout(0.02)
                peer.connect(("127.0.0.1", port))
                key = bytes(20)

                def reply(query):
                    peer.send(query)
                    while child.poll() is None:
                        try:
                            return bdecode(peer.recv(65536))
                        except OSError:
                            pass

                gave = reply(asks(b"get_peers", info_hash=key))
                if gave:
                    reply(asks(b"announce_peer", info_hash=key, port=6881, token=gave[b"r"][b"token"]))

        words = ["serve", "--bind", "127.0.0.1:%d" % port, "--receives", str(receives), "--own", "ff" * 20, *workers]
        text = "%040x 127.0.0.1:6001\n" % 1
        name = " ".join(["serve", *workers]) + ": get_peers, announce_peer"
        self.assertSaysSo(Case(name, words, text, "received 2 replied 2\n", allocations, play))

    def test_a_node_that_serves(self):
        """A failed allocation that isn't said in a node that is asked for the peers of a key, and then told of one with the token
        that it gave."""
        self.served((), 2, range(62, 63))

    def test_two_workers_that_serve(self):
        """The same by two workers. Each query is a batch of its own, since a receive call that gives nothing ends one."""
        self.served(("--workers", "2"), 4, range(100, 101))


class TwoWorkersAtOnce(FailingTest):
    """The same in two workers of a batch that are at work at the same time."""

    def test_two_workers_that_answer_at_once(self):
        """A failed allocation of either thread that isn't said. Eight queries come twice while the node is stopped, so that they
        stand in one batch: were they not, the receive calls would be used up before all had come. Each worker has eight, for
        which the second is woken. Whichever worker is first, the replies are the same. Where no thread can be made, the first
        one answers all."""
        self.port, self.own = free_port(), b"\xff" * 20
        self.key, self.other, self.third = (identifier(n) for n in (20, 21, 22))
        self.held = hashlib.sha1(b"4:held").digest()
        self.askers = [(identifier(n), self.udp(0)) for n in range(1, 9)]
        self.contacts = [(name, "127.0.0.1", asker.getsockname()[1]) for name, asker in self.askers]
        words = ["serve", "--bind", "127.0.0.1:%d" % self.port, "--receives", "22", "--own", self.own.hex(), "--workers", "2"]
        text = "".join(line(*contact) for contact in self.contacts)
        name = "serve --workers 2: sixteen queries at once"
        output = "received 19 replied 19\n"
        self.assertSaysSo(Case(name, words, text, output, range(142, 143), self.play, range(15, 45)))

    def closest(self, target):
        far = lambda contact: bytes(a ^ b for a, b in zip(contact[0], target))
        return b"".join(record(*contact) for contact in sorted(self.contacts, key=far))

    def sent(self, at, method, arguments):
        name, asker = self.askers[at]
        datagram = query(b"t%d" % at, method, {b"id": name, **arguments})
        asker.sendto(datagram, ("127.0.0.1", self.port))
        return datagram

    def came(self, at, child):
        while True:
            ended = child.poll() is not None
            try:
                return self.askers[at][1].recv(65536)
            except BlockingIOError:
                if ended:
                    return None
                time.sleep(0.0005)

    def holding(self, child):
        """Has one peer and one item held, by the token that it gives."""
        while not bound(self.port) and child.poll() is None:
            time.sleep(0.002)
        self.sent(0, b"get_peers", {b"info_hash": self.key})
        gave = self.came(0, child)
        token = bdecode(gave)[b"r"][b"token"] if gave else b""
        self.sent(0, b"announce_peer", {b"info_hash": self.key, b"port": 6881, b"token": token})
        self.came(0, child)
        self.sent(0, b"put", {b"token": token, b"v": b"held"})
        self.came(0, child)
        return token

    def play(self, child):
        """Asks all at once."""
        key, other, third, held, token = self.key, self.other, self.third, self.held, self.holding(child)
        batch = (
            (b"ping", {}, {}),
            (b"find_node", {b"target": other}, {"nodes": self.closest(other)}),
            (b"get_peers", {b"info_hash": key}, {"nodes": self.closest(key), "token": token, "values": [b"\x7f\0\0\1\x1a\xe1"]}),
            (b"announce_peer", {b"info_hash": other, b"port": 1, b"token": token}, {}),
            (b"put", {b"token": token, b"v": b"other"}, {}),
            (b"get", {b"target": held}, {"nodes": self.closest(held), "token": token, "v": b"held"}),
            (b"find_node", {b"target": key}, {"nodes": self.closest(key)}),
            (b"announce_peer", {b"info_hash": third, b"port": 1, b"token": token}, {}),
        )
        child.send_signal(signal.SIGSTOP)
        while state(child) not in "TZ":
            time.sleep(0.0005)
        queries = [self.sent(at, *one) for _ in range(2) for at, (*one, _) in enumerate(batch)]
        child.send_signal(signal.SIGCONT)
        replies = [self.came(at, child) for _ in range(2) for at in range(8)]
        wanted = [gives(one, self.own, **more) for one, (_, _, more) in zip(queries, batch + batch)]
        if replies != wanted and (replies, child.poll()) != ([None] * 16, 9):
            return "the replies are %r" % replies
