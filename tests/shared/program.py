"""The program that is tested or measured: which it is, how it is run, and a node of it that serves.

Whoever takes part says `choose(WORD)` once; `path()` is the program from then on, the one that the launcher builds where nobody
chose."""

import os
import resource
import shutil
import socket
import subprocess
import sys
import time
from types import SimpleNamespace

from shared.messages import OWN, TARGET, asks, bdecode

ROOT = os.path.dirname(os.path.dirname(os.path.dirname(os.path.realpath(__file__))))
BUILT = os.path.join(ROOT, "crates", "node_main", "out", "node_main")
INPUT_LIMIT = 1_048_576  # bytes of an input
os.environ.pop("NOLZAVIRT_GROUP", None)  # nothing is of a group, unless it says so

# What the words of tests/run say to modules that draw or measure; see its text.
SETTINGS = SimpleNamespace(part=1, seed=None, sessions=None, minutes=None)
_CHOSEN = []


class Failure(AssertionError):
    """What keeps a test, or a measurement, from going on, in words."""


def check(holds, what):
    """For what is no method of a test."""
    if not holds:
        raise Failure(what)


def is_program(word):
    return os.path.isfile(word) and os.access(word, os.X_OK)


def choose(word):
    """Has the named program be the one."""
    _CHOSEN[:] = [os.path.realpath(word)]


def path():
    if not _CHOSEN:
        subprocess.run([os.path.join(ROOT, "nolzavirt"), "--build"], check=True)
        choose(BUILT)
    return _CHOSEN[0]


def choose_by(text):
    """Goes by the words of a script that has none but PROGRAM, and `text` for its help."""
    given = sys.argv[1:]
    if "--help" in given or "-h" in given:
        print(text)
        sys.exit()
    if len(given) > 1 or given and not is_program(given[0]):
        print("no program: %s" % " ".join(given), file=sys.stderr)
        sys.exit(2)
    if given:
        choose(given[0])


# ---------------------------------------------------------------------------------------------------- runs, and their words


def lookup(*more):
    return [path(), "lookup", "--target", TARGET, *more]


def peers(*more):
    return [path(), "peers", "--key", TARGET, "--own", "ff" * 20, "--timeout", "20000", *more]


def node(*more):
    return [path(), "node", "--own", OWN.hex(), *more]


class Ended:
    """How a run ended."""

    def __init__(self, status, out, seconds=0):
        self.status, self.out, self.seconds = status, out, seconds

    def __str__(self):
        return "status %d, %d bytes %r, %.2f s" % (self.status, len(self.out), self.out[:120], self.seconds)


def start(words, **options):
    """A child at work, whose input is to come."""
    streams = {"stdin": subprocess.PIPE, "stdout": subprocess.PIPE, "stderr": subprocess.DEVNULL}
    return subprocess.Popen(words, **{**streams, **options})


def hand(child, text):
    """Hands a child its whole input."""
    child.stdin.write(text if isinstance(text, bytes) else text.encode())
    child.stdin.close()
    child.stdin = None


def ended(child, seconds=100):
    """How a child ended that has its input."""
    out, _ = child.communicate(timeout=seconds)
    return Ended(child.returncode, out)


def run(words, text="", **options):
    began = time.monotonic()
    child = start(words, **options)
    out, _ = child.communicate(text if isinstance(text, bytes) else text.encode(), timeout=100)
    return Ended(child.returncode, out, time.monotonic() - began)


def limited(room):
    """Has a child take so many MiB of memory at most."""
    return lambda: resource.setrlimit(resource.RLIMIT_DATA, (room * 2**20, room * 2**20))


def end(child):
    """Ends a child that may have ended."""
    if child.poll() is None:
        child.kill()
    child.communicate()


# ------------------------------------------------------------------------------------------------ what the system says


def until(holds, seconds=20, pause=0.01):
    """What holds at last, or what it is after these seconds, which is false."""
    end = time.monotonic() + seconds
    while True:
        given = holds()
        if given or time.monotonic() >= end:
            return given
        time.sleep(pause)


def free_port():
    with socket.socket(socket.AF_INET, socket.SOCK_DGRAM) as free:
        free.bind(("127.0.0.1", 0))
        return free.getsockname()[1]


def bound(port):
    """The row of the UDP socket of this machine that has the port, as words, or None."""
    with open("/proc/net/udp") as table:
        for row in list(table)[1:]:
            words = row.split()
            if words[1].endswith(":%04X" % port):
                return words
    return None


def kept(port):
    """The bytes that the system keeps for the socket of a port. Its table may lack a row while other sockets come and go."""
    row = until(lambda: bound(port), 1, 0.001)
    if not row:
        raise Failure("no socket has the port %d" % port)
    return int(row[4].split(":")[1], 16)


def state(child):
    """Whether a child runs (R), sleeps (S), is stopped (T) or has ended (Z)."""
    if child.poll() is not None:
        return "Z"
    with open("/proc/%d/stat" % child.pid) as stat:
        return stat.read().rpartition(")")[2].split()[0]


# ------------------------------------------------------------------------------------------------- a node that serves


class Server:
    """A node that serves, and a socket that asks it. Whoever makes one closes it; closing it twice does nothing."""

    def __init__(self, *more, text="", port=None, command="serve", **options):
        self.port, self.socket = port or free_port(), socket.socket(socket.AF_INET, socket.SOCK_DGRAM)
        self.child = start([path(), command, "--bind", "127.0.0.1:%d" % self.port, *more], **options)
        try:
            hand(self.child, text)
        except BrokenPipeError:
            self.child.stdin = None  # it has ended, which the first question says
        until(lambda: bound(self.port) or self.child.poll() is not None, 20, 0.005)
        self.socket.bind(("127.0.0.1", 0))
        self.socket.connect(("127.0.0.1", self.port))
        self.socket.settimeout(20)

    def ask(self, query):
        try:
            self.socket.send(query)
            return self.socket.recv(65536)
        except OSError as error:
            raise Failure("no reply to %r: %s, status %s" % (query[:80], error, self.child.poll()))

    def ask_all(self, queries):
        """Asks these, as many ahead of their replies as have a place in a socket."""
        ahead = 32 if max(map(len, queries)) < 1000 else 8
        try:
            for at in range(0, len(queries), ahead):
                some = queries[at : at + ahead]
                for query in some:
                    self.socket.send(query)
                for _ in some:
                    self.socket.recv(65536)
        except OSError as error:
            raise Failure("no reply to one of %d: %s, status %s" % (len(queries), error, self.child.poll()))

    def token(self):
        """A token of it, for whoever asks by this socket."""
        return bdecode(self.ask(asks(b"get_peers", info_hash=bytes(20))))[b"r"][b"token"]

    def is_waiting(self):
        """Whether it has taken all that came to its socket."""
        try:
            return kept(self.port) == 0
        except Failure:
            raise Failure("the node has no socket any more, status %s" % self.child.poll()) from None

    def send_all(self, datagrams):
        """Sends what is owed no reply, and no more of it at once than has a place in the node's socket."""
        for at in range(0, len(datagrams), 16):
            for datagram in datagrams[at : at + 16]:
                self.socket.send(datagram)
            while not self.is_waiting():
                time.sleep(0.0005)

    def resident(self):
        """Its memory in the machine, in KiB."""
        with open("/proc/%d/smaps_rollup" % self.child.pid) as rows:
            return sum(int(row.split()[1]) for row in rows if row.startswith("Rss:"))

    def ended(self):
        status = ended(self.child)
        self.close()
        return status

    def close(self):
        self.socket.close()
        if self.child.returncode is None:
            end(self.child)


# --------------------------------------------------------------------------------------- a library before the C library


def library(source, folder):
    """A library to be loaded before the C library, built from this source in C."""
    made, text_file = os.path.join(folder, "made.so"), os.path.join(folder, "made.c")
    with open(text_file, "w") as file:
        file.write(source)
    kit = shutil.which("rt")
    compilers = [shutil.which("cc"), shutil.which("clang")]
    if kit:
        compilers.append(os.path.join(os.path.dirname(os.path.realpath(kit)), "../toolchain/bin/clang"))
    for compiler in filter(None, compilers):
        words = [compiler, "-O1", "-w", "-fPIC", "-fno-builtin", "-shared", "-o", made, text_file]
        if subprocess.run(words, stderr=subprocess.DEVNULL).returncode == 0:
            return made
    raise Failure("no C compiler builds a library that stands before the C library")
