"""The clients that people run, as nodes of a network of this machine alone. They are the Debian packages of PACKAGES."""

import hashlib
import os
import shutil
import signal
import subprocess
import sys
import tempfile
import time

from loopback import ROOT, Process, Refusal, first_answer, wait_for
from shared.messages import IPV6, bencode, compact, contact_line, family_of, nodes_of, words_of

LIBTORRENT_NODES = os.path.join(ROOT, "interop", "libtorrent_nodes")
PACKAGES = {
    "aria2": "aria2",
    "transmission": "transmission-daemon",
    "rtorrent": "rtorrent",
    "libtorrent": "python3-libtorrent",
}


class Torrent:
    """A torrent without a tracker, of which nobody has a byte."""

    def __init__(self):
        info = {b"length": 9, b"name": b"nolzavirt", b"piece length": 16384, b"pieces": os.urandom(20)}
        self.text, self.key = bencode({b"info": info}), hashlib.sha1(bencode(info)).digest()


class Client:
    """A client that serves the DHT at an address of the network, which of IPv6 only those of CLIENTS_OF_IPV6 do. `boot` are
    the nodes that it is told of; of the torrent it looks for peers, and it announces itself to them at its own port."""

    kind = None
    end = signal.SIGTERM
    patience = 90  # seconds within which it does what it does when it pleases
    told = 1  # of how many nodes it is told

    def __init__(self, address, boot=(), torrent=None):
        self.address, self.name, self.torrent = address, None, torrent or Torrent()
        self.folder = tempfile.mkdtemp(prefix="nolzavirt-%s-" % self.kind)
        self.file("wanted/wanted.torrent", self.torrent.text)
        began = time.monotonic()
        self.process = self.start(list(boot)[: self.told])
        self.seconds = first_answer(self, began)
        self.begun()

    def begun(self):
        """What is done once it answers."""

    def line(self):
        return contact_line(self.name, self.address)

    def stop(self):
        return self.process.stop(self.end)

    def file(self, name, text):
        path = os.path.join(self.folder, name)
        os.makedirs(os.path.dirname(path), exist_ok=True)
        with open(path, "wb") as file:
            file.write(text if isinstance(text, bytes) else text.encode())
        return path


class Aria2(Client):
    kind = "aria2"

    @staticmethod
    def missing():
        return None if shutil.which("aria2c") else "aria2c isn't installed"

    @staticmethod
    def version():
        return first_number(["aria2c", "--version"])

    def start(self, boot):
        host, port = self.address
        six = "6" if family_of(host) is IPV6 else ""
        words = ["aria2c", "--no-conf", "--dht-listen-port=%d" % port, "--listen-port=%d" % port]
        if six:  # `--interface` takes no address of IPv6
            words += ["--enable-dht=false", "--enable-dht6=true", "--dht-listen-addr6=" + host, "--interface=lo"]
        else:
            words += ["--enable-dht=true", "--interface=" + host]
        words += ["--dht-file-path%s=%s" % (six, os.path.join(self.folder, "dht.dat")), "--dir=" + self.folder]
        words += ["--bt-enable-lpd=false", "--enable-peer-exchange=false", "--summary-interval=0", "--seed-time=0"]
        words += ["--console-log-level=warn", "--file-allocation=none", "--bt-tracker-connect-timeout=1"]
        words += ["--dht-entry-point%s=%s" % (six, words_of(boot[0]))] if boot else []
        return Process(words + [self.folder + "/wanted/wanted.torrent"], folder=self.folder)


class Transmission(Client):
    kind = "transmission"
    told = 12  # it looks for peers only once it has nine nodes of which four have answered, and is slow to find more

    @staticmethod
    def missing():
        return None if shutil.which("transmission-daemon") else "transmission-daemon isn't installed"

    @staticmethod
    def version():
        return first_number(["transmission-daemon", "--version"])

    def start(self, boot):
        host, port = self.address
        settings = (
            '{"bind-address-ipv4": "%s", "bind-address-ipv6": "::1", "dht-enabled": true, "lpd-enabled": false, '
            '"pex-enabled": false, "utp-enabled": false, "port-forwarding-enabled": false, "peer-port": %d, '
            '"peer-port-random-on-start": false, "rpc-enabled": false, "download-dir": "%s", '
            '"watch-dir-enabled": true, "watch-dir": "%s", "encryption": 0}'
            % (host, port, self.folder, self.folder + "/wanted")
        )
        self.file("settings.json", settings)
        known = b"".join(compact(*address) for address in boot)
        self.file("dht.dat", bencode({b"id": os.urandom(20), b"nodes": known}))
        return Process(["transmission-daemon", "-f", "-g", self.folder], folder=self.folder)


class Rtorrent(Client):
    kind = "rtorrent"

    @staticmethod
    def missing():
        return None if shutil.which("rtorrent") else "rtorrent isn't installed"

    @staticmethod
    def version():
        return first_number(["rtorrent", "-h"])

    def start(self, boot):
        host, port = self.address
        lines = [
            "system.daemon.set = true",
            "directory.default.set = " + self.folder,
            "session.path.set = " + self.folder,
            "network.bind_address.set = " + host,
            "network.port_range.set = %d-%d" % (port, port),
            "network.port_random.set = no",
            "dht.mode.set = on",
            "dht.port.set = %d" % port,
            "protocol.pex.set = no",
            "trackers.use_udp.set = no",
        ]
        for place, address in enumerate(boot[:8]):
            lines.append('schedule2 = node%d, 0, 0, "dht.add_node=%s"' % (place, words_of(address)))
        lines.append('schedule2 = wanted, 3, 0, "load.start=%s/wanted/wanted.torrent"' % self.folder)
        config = self.file("rtorrent.rc", "\n".join(lines) + "\n")
        return Process(["rtorrent", "-n", "-o", "import=" + config], folder=self.folder, environment={"TERM": "dumb"})


class Libtorrent(Client):
    kind = "libtorrent"

    @staticmethod
    def missing():
        return None if libtorrent_python() else "no python3 has the module libtorrent"

    @staticmethod
    def version():
        return first_number([libtorrent_python(), "-c", "import libtorrent; print(libtorrent.version)"])

    def start(self, boot):
        self.boot = boot
        words = [libtorrent_python(), LIBTORRENT_NODES, "--host", self.address[0], "--port", str(self.address[1])]
        return Process(words, stdin=subprocess.PIPE, folder=self.folder)

    def begun(self):
        for address in self.boot:
            self.say("join %s" % words_of(address))
        self.say("torrent %s/wanted/wanted.torrent" % self.folder)

    def say(self, line):
        self.process.child.stdin.write(line.encode() + b"\n")
        self.process.child.stdin.flush()

    def stop(self):
        return self.process.stop(signal.SIGKILL)


class Many:
    """Nodes of libtorrent that know each other."""

    def __init__(self, host, port, count):
        words = [libtorrent_python(), LIBTORRENT_NODES, "--host", host, "--port", str(port), "--count", str(count)]
        self.process = Process(words, stdin=subprocess.PIPE, stdout=subprocess.PIPE)
        self.addresses = [(host, port + place) for place in range(count)]
        self.hear("up")

    def say(self, line):
        self.process.child.stdin.write(line.encode() + b"\n")
        self.process.child.stdin.flush()

    def hear(self, word):
        while True:
            words = self.process.child.stdout.readline().decode().split()
            if not words:
                raise Refusal("the nodes of libtorrent ended: %s" % self.process.said())
            if words[0] == word:
                return words[1:]

    def names(self, asker):
        """The identifiers, once each node names eight others."""

        def ready():
            answers = [asker.answer(address, b"find_node", {b"target": os.urandom(20)}) for address in self.addresses]
            has_eight = all(len(nodes_of(answer, asker.family)) == 8 for answer in answers)
            return has_eight and [answer[b"id"] for answer in answers]

        found = wait_for(60, ready, 1)
        if not found:
            raise Refusal("the nodes of libtorrent didn't all name eight others within 60 s")
        return found


CLIENTS = (Aria2, Transmission, Rtorrent, Libtorrent)
CLIENTS_OF_IPV6 = (Aria2, Libtorrent)  # rtorrent 0.9.8 binds IPv4 alone, transmission 3.00 no socket of IPv6 at ::1


def first_number(words):
    """The first word with a dot and digits of what a program says of itself."""
    try:
        said = subprocess.run(words, stdout=subprocess.PIPE, stderr=subprocess.STDOUT, timeout=20).stdout.decode()
    except (OSError, subprocess.TimeoutExpired):
        return "?"
    for word in said.replace(",", " ").split():
        if word[:1].isdigit() and "." in word:
            return word.rstrip(".")
    return "?"


def libtorrent_python():
    """A python3 that has the module libtorrent."""
    if not hasattr(libtorrent_python, "found"):
        libtorrent_python.found = None
        for word in (sys.executable, "/usr/bin/python3", "/usr/local/bin/python3"):
            has = [word, "-c", "import libtorrent"]
            if os.access(word, os.X_OK) and not subprocess.call(has, stdin=subprocess.DEVNULL, stderr=subprocess.DEVNULL):
                libtorrent_python.found = word
                break
    return libtorrent_python.found


def say_what_is_missing(script):
    """Says which of the clients aren't there, and which Debian packages have them; those that are."""
    there = [client for client in CLIENTS if not client.missing()]
    lacking = [client for client in CLIENTS if client.missing()]
    for client in lacking:
        print("%s: %s" % (script, client.missing()), file=sys.stderr)
    if lacking:
        names = " ".join(PACKAGES[client.kind] for client in lacking)
        print("%s: they are the Debian packages: %s" % (script, names), file=sys.stderr)
    return there
