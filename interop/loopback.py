"""What the scripts of interop/ and bench/ share: a network of this machine alone, processes that end with the script, and nodes that
`serve` and `node` run. Messages, and who asks, they have of tests/shared.

It needs Python 3 on Linux and nothing else."""

import collections
import contextlib
import ctypes
import fcntl
import os
import shutil
import signal
import socket
import struct
import subprocess
import sys
import tempfile
import time

ROOT = os.path.dirname(os.path.dirname(os.path.realpath(__file__)))
sys.path.insert(0, os.path.join(ROOT, "tests"))

from shared.messages import contact_line, distance, query, words_of  # noqa: E402
from shared.peers import Asker  # noqa: E402

class Refusal(Exception):
    """What keeps a script from going on, in words."""


def wait_for(seconds, call, pause=0.1):
    """What the call gives first that isn't false, within these seconds; otherwise what it gave last."""
    until = time.monotonic() + seconds
    while True:
        given = call()
        if given or time.monotonic() >= until:
            return given
        time.sleep(pause)


# ------------------------------------------------------------------------------------- a network of this machine alone

SIOCSIFADDR, SIOCSIFFLAGS, SIOCSIFNETMASK = 0x8916, 0x8914, 0x891C
IFF_UP_RUNNING = 0x41
OWN_NETWORK = "NOLZAVIRT_OWN_NETWORK"
LOOPBACK_OF_IPV6 = "::1"


class Network:
    """Where the nodes are: in a network namespace of this script's own, which has nothing but addresses of its own on the
    loopback device, or, where the system grants none, on 127.0.0.0/8."""

    def __init__(self, own):
        self.own = own

    def host(self, number):
        return ("10.77.0.%d" if self.own else "127.77.0.%d") % number

    def words(self):
        return "a network namespace of its own (10.77.0.0/24)" if self.own else "loopback (127.0.0.0/8)"


def has_ipv6():
    """Whether the loopback device has its address of IPv6."""
    try:
        with socket.socket(socket.AF_INET6, socket.SOCK_DGRAM) as any_socket:
            any_socket.bind((LOOPBACK_OF_IPV6, 0))
    except OSError:
        return False
    return True


def _interface(name, call, argument):
    with socket.socket(socket.AF_INET, socket.SOCK_DGRAM) as any_socket:
        fcntl.ioctl(any_socket, call, struct.pack("16s16s8x", name.encode(), argument))


def _address_of_ipv6(name, host):
    """Gives the device an address besides ::1, of those for documentation (RFC 3849): where a machine has ::1 and none
    besides, glibc tells aria2 that ::1 is unknown too."""
    with socket.socket(socket.AF_INET6, socket.SOCK_DGRAM) as any_socket:
        argument = struct.pack("=16sIi", socket.inet_pton(socket.AF_INET6, host), 128, socket.if_nametoindex(name))
        fcntl.ioctl(any_socket, SIOCSIFADDR, argument)


def _internet(host):
    return struct.pack("=HH4s8x", socket.AF_INET, 0, socket.inet_aton(host))


def own_network():
    """Starts this script again in a network namespace of its own, where that may be, and gives the network."""
    state = os.environ.get(OWN_NETWORK)
    if state is None:
        unshare = shutil.which("unshare")
        words = [unshare, "-n"] if os.geteuid() == 0 else [unshare, "-r", "-n"]
        may = unshare and not subprocess.call([*words, "true"], stdin=subprocess.DEVNULL, stderr=subprocess.DEVNULL)
        os.environ[OWN_NETWORK] = "yes" if may else "no"
        if may:
            os.execv(unshare, [*words, sys.executable, *sys.argv])
        return Network(False)
    if state != "yes":
        return Network(False)
    _interface("lo", SIOCSIFFLAGS, struct.pack("h14x", IFF_UP_RUNNING))
    _interface("lo:0", SIOCSIFADDR, _internet("10.77.0.1"))
    _interface("lo:0", SIOCSIFNETMASK, _internet("255.255.255.0"))
    with contextlib.suppress(OSError):  # there may be no IPv6
        _address_of_ipv6("lo", "2001:db8:77::1")
    return Network(True)


# --------------------------------------------------------------------------------------------------------- processes


def _ends_with_the_script():
    ctypes.CDLL(None).prctl(1, signal.SIGKILL)  # PR_SET_PDEATHSIG


class Process:
    """A process of this script's own, with a folder of its own; it ends with the script at the latest."""

    running = []

    def __init__(self, words, stdin=subprocess.DEVNULL, stdout=None, folder=None, environment=None):
        self.folder = folder or tempfile.mkdtemp(prefix="nolzavirt-")
        self.log = open(os.path.join(self.folder, "log"), "w+b")
        self.child = subprocess.Popen(
            words,
            stdin=stdin,
            stdout=self.log if stdout is None else stdout,
            stderr=self.log,
            cwd=self.folder,
            env={**os.environ, "HOME": self.folder, **(environment or {})},
            preexec_fn=_ends_with_the_script,
        )
        self.pid = self.child.pid
        Process.running.append(self)

    def said(self):
        with open(self.log.name, "rb") as log:
            return log.read()[-600:].decode(errors="replace").strip()

    def processor(self):
        """Its processor time in seconds, all threads together."""
        spent = 0
        for task in os.listdir("/proc/%d/task" % self.pid):
            try:
                with open("/proc/%d/task/%s/schedstat" % (self.pid, task)) as file:
                    spent += int(file.read().split()[0])
            except OSError:
                pass
        return spent / 1e9

    def in_system(self):
        """Its processor time in the system's calls in seconds, all threads together, in hundredths."""
        with open("/proc/%d/stat" % self.pid) as file:
            return int(file.read().rsplit(")", 1)[1].split()[12]) / os.sysconf("SC_CLK_TCK")

    def memory(self):
        """Its memory in the machine (RSS), in MiB."""
        with open("/proc/%d/statm" % self.pid) as file:
            return int(file.read().split()[1]) * os.sysconf("SC_PAGESIZE") / 2**20

    def stop(self, by=signal.SIGTERM, seconds=5):
        """Ends it, and gives its status."""
        if self.child.stdin:
            with contextlib.suppress(OSError):
                self.child.stdin.close()
            self.child.stdin = None
        if self.child.poll() is None:
            self.child.send_signal(by)
            try:
                self.child.wait(seconds)
            except subprocess.TimeoutExpired:
                self.child.kill()
                self.child.wait()
        self.log.close()
        shutil.rmtree(self.folder, ignore_errors=True)
        if self in Process.running:
            Process.running.remove(self)
        return self.child.returncode

    @staticmethod
    def stop_all():
        for process in list(Process.running):
            process.stop(signal.SIGKILL)


def ended_by_signals():
    """Makes SIGTERM and SIGHUP end the script as an interrupt does, so that it cleans up."""

    def end(number, frame):
        raise KeyboardInterrupt

    signal.signal(signal.SIGTERM, end)
    signal.signal(signal.SIGHUP, end)


# ---------------------------------------------------------------------------------------------------------- our node


def program_of(word):
    """The program: the one that is named, or else the one that the launcher builds."""
    if word is None:
        if subprocess.call([os.path.join(ROOT, "nolzavirt"), "--build"]):
            raise Refusal("the program isn't built; name one by --program")
        word = os.path.join(ROOT, "crates", "node_main", "out", "node_main")
    if not os.access(word, os.X_OK):
        raise Refusal("%s is no program" % word)
    return os.path.realpath(word)


class Ours:
    """A node that `serve` runs."""

    kind = "nolzavirt"

    def __init__(self, program, address, contacts="", own=None, more=()):
        self.address, self.name = address, own or os.urandom(20)
        words = [program, "serve", "--bind", words_of(address), "--own", self.name.hex(), *more]
        began = time.monotonic()
        self.process = Process(words, stdin=subprocess.PIPE, stdout=None)
        self.process.child.stdin.write(contacts.encode())
        self.process.child.stdin.close()
        self.process.child.stdin = None
        self.seconds = first_answer(self, began)

    def line(self):
        return contact_line(self.name, self.address)

    def stop(self):
        """Ends it as Ctrl-C does."""
        return self.process.stop(signal.SIGINT)


class Looker:
    """A node that `node` runs: it looks for what its input names, while it answers. It is there from the start, and begins
    with its input; what it is asked before waits in its socket."""

    kind = "nolzavirt"

    def __init__(self, program, address, own=None, more=()):
        self.address, self.name = address, own or os.urandom(20)
        words = [program, "node", "--bind", words_of(address), "--own", self.name.hex(), *more]
        self.process = Process(words, stdin=subprocess.PIPE, stdout=None)
        if not wait_for(20, self.is_bound, 0.002):
            raise Refusal("`node` binds no socket; it says: %s" % (self.process.said() or "nothing"))

    def is_bound(self):
        host, port = self.address
        words = "%s:%04X" % (socket.inet_aton(host)[::-1].hex().upper(), port)
        with open("/proc/net/udp") as table:
            return any(line.split()[1] == words for line in table)

    def begin(self, contacts, targets):
        self.begin_with(contacts + "".join(["find %s\n" % target.hex() for target in targets]))

    def begin_with(self, text):
        self.process.child.stdin.write(text.encode())
        self.process.child.stdin.close()
        self.process.child.stdin = None

    def line(self):
        return contact_line(self.name, self.address)

    def output(self):
        with open(self.process.log.name, "rb") as log:
            return log.read().decode(errors="replace")

    def end(self, seconds=60):
        """Pings it until it has made its receive calls, and gives its output and its status."""
        until, asker = time.monotonic() + seconds, Asker(self.address[0])
        while self.process.child.poll() is None and time.monotonic() < until:
            for _ in range(20):
                asker.socket.sendto(query(b"end", b"ping", {b"id": asker.name}, True), self.address)
            time.sleep(0.001)
        asker.close()
        return self.output(), self.process.child.poll()

    def stop(self):
        return self.process.stop(signal.SIGINT)


Found = collections.namedtuple("Found", "target lines found asked failed turned")


def finds_of(output):
    """What `node` printed of each target, and how many datagrams it received and replies it sent; ValueError where the
    output is none of `node`."""
    lines, ones = output.splitlines(), []
    while lines and lines[0].startswith("find "):
        target, contacts = lines.pop(0).split()[1], []
        while lines and not lines[0].startswith("found "):
            contacts.append(lines.pop(0) + "\n")
        counts = lines.pop(0).split() if lines else []
        if counts[::2] != ["found", "asked", "failed", "turned"]:
            raise ValueError("no counts behind the contacts of %s" % target)
        ones.append(Found(bytes.fromhex(target), contacts, *map(int, counts[1::2])))
    last = lines[0].split() if len(lines) == 1 else []
    if last[::2] != ["received", "replied"]:
        raise ValueError("no line of what was received: %r" % lines[:2])
    return ones, int(last[1]), int(last[3])


def closest_lines(contacts, target, many=8):
    """The lines of the contacts (address by identifier) that are closest to the target, nearest first."""
    nearest = sorted(contacts, key=lambda name: distance(name, target))[:many]
    return [contact_line(name, contacts[name]) for name in nearest]


def first_answer(node, began, seconds=20):
    """Seconds from its start to its first answer to a ping. It sets the node's identifier, where it has none yet."""
    asker = Asker(node.address[0])
    try:
        while time.monotonic() < began + seconds:
            answer = asker.answer(node.address, b"ping", timeout=0.02)
            if answer:
                node.name = answer[b"id"]
                return time.monotonic() - began
            if node.process.child.poll() is not None:
                break
            time.sleep(0.002)
    finally:
        asker.close()
    raise Refusal("%s doesn't answer a ping; it says: %s" % (node.kind, node.process.said() or "nothing"))


def run_ours(program, words, contacts, seconds=60):
    """What the program writes, its status and the seconds that it took."""
    began = time.monotonic()
    ended = subprocess.run(
        [program, *words], input=contacts.encode(), stdout=subprocess.PIPE, stderr=subprocess.DEVNULL, timeout=seconds
    )
    return ended.stdout.decode(), ended.returncode, time.monotonic() - began
