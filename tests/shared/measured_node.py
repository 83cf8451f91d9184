"""Nodes that are sent datagrams while their processor time is measured, and contacts that keep a lookup waiting or going."""

import os
import socket
import struct
import subprocess
import tempfile
import time
from statistics import median

from shared import program
from shared.chosen_datagrams import (
    ASKER,
    GIVEN,
    KEY,
    QUERY_PLACES,
    REPLY_PLACES,
    asking,
    putting,
    saying,
    tagged,
    text,
)
from shared.messages import TARGET, asks, bdecode, find, identifier, in_group
from shared.peers import Crowd
from shared.program import Failure, bound, check, free_port, state

OWN = b"\xff" * 20
HASH = "e28910ea0adb94dd45ced75fbff3e135c01bc437"  # of the value 5:hello
MANY, LONG_ENOUGH = 64, 0.2  # datagrams of one measurement, and the seconds of processor time after which it ends
EACH = 9  # datagrams of one measurement whose median counts
ALONE, PAUSE = 15, 0.02  # datagrams of one measurement with pauses, and the seconds between two
UNCOUNTED = 0.5  # seconds that a process waits, after which nothing was counted of what it did
TRIES = 20  # times that a measurement is begun anew where something wasn't counted


def counted(times):
    """Those of which the system counted anything."""
    some = [time for time in times if time > 0]
    check(some, "the system counts none of its time")
    return some

class Contacts(Crowd):
    """Contacts that are asked and answer nobody: what they were asked is in `asked`, with who asked."""

    def __init__(self):
        self.asked, self.asker = {}, None
        super().__init__(lambda host, query: None)

    def listen(self):
        while not self.closed:
            try:
                data, info, _, source = self.socket.recvmsg(65536, 64)
                self.asked.setdefault(bdecode(data)[b"t"], info[0][2][8:12])
                self.asker = source
            except (OSError, IndexError, ValueError, KeyError):
                pass  # it was closed, or this is noise

    def send(self, host, datagram):
        sent_from = (socket.IPPROTO_IP, self.PACKET_INFO, struct.pack("=i4s4s", 0, host, bytes(4)))
        self.socket.sendmsg([datagram], [sent_from], 0, self.asker)


def lines_of(crowd, count):
    """The lines of so many contacts, and their names by their hosts."""
    names_of = {bytes([127, 90, 0, number + 1]): identifier(number + 1) for number in range(count)}
    return "".join(crowd.line(name, host) for host, name in names_of.items()), names_of


WORDS = {
    "serve": [],
    "node": ["--receives", "1000000000", "--timeout", "60000"],
    "lookup": ["--target", TARGET, "--timeout", "60000"],
    "get": ["--key", HASH, "--timeout", "60000"],
    "put": ["--value", "353a68656c6c6f", "--timeout", "60000"],
    "peers": ["--key", TARGET, "--timeout", "60000"],
}
COMMANDS = list(WORDS)
ASKED, MOST_ASKED = 8, 20  # contacts that a node has asked and that are silent
FINDS = 16


class Measured:
    """A running command whose lookups, if it has some, wait for their contacts. It is sent datagrams, and the processor
    time is read that it took for them."""

    running = []

    def __init__(self, command, sealed=False, environment=None, asked=ASKED):
        self.child = self.socket = self.crowd = None
        Measured.running.append(self)
        try:
            self.begin(command, sealed, environment, asked)
        except BaseException:
            self.close()
            raise

    def begin(self, command, sealed, environment, asked):
        self.command, self.port = command, free_port()
        self.names = {}
        lines, queries = "", 0
        if command != "serve":
            self.crowd = Contacts()
            lines, self.names = lines_of(self.crowd, asked)
            queries = asked
        if command == "node":
            lines += "".join(find(identifier(number << 80)) for number in range(FINDS))
            queries = FINDS * asked
        words = [program.path(), command, "--own", OWN.hex(), "--bind", "127.0.0.1:%d" % self.port, *WORDS[command]]
        words += ["--k", "20", "--paths", "8", "--alpha", "4"] if asked > ASKED else []
        with tempfile.TemporaryFile() as file:
            file.write(lines.encode())
            file.seek(0)
            env = {**(in_group(KEY) if sealed else os.environ), **(environment or {})}
            quiet = dict(stdout=subprocess.DEVNULL, stderr=subprocess.DEVNULL)
            self.child = subprocess.Popen(words, stdin=file, env=env, **quiet)
        self.socket = socket.socket(socket.AF_INET, socket.SOCK_DGRAM)
        self.socket.bind(("127.0.0.1", 0))
        self.until(lambda: bound(self.port) is not None, "it binds no socket")
        self.socket.connect(("127.0.0.1", self.port))
        if queries:
            self.until(lambda: len(self.crowd.asked) == queries, "it doesn't ask its contacts")

    def until(self, holds, what):
        patience = time.monotonic() + 20
        while not holds():
            check(self.child.poll() is None, "it ended with status %s" % self.child.poll())
            check(time.monotonic() < patience, what)
            time.sleep(0.002)

    def spent(self):
        """Its processor time, in seconds."""
        total = 0
        tasks = "/proc/%d/task" % self.child.pid
        for task in os.listdir(tasks):
            with open("%s/%s/schedstat" % (tasks, task)) as file:
                total += int(file.read().split()[0])
        return total / 1e9

    def row(self):
        """The row of its socket, which the system's table may lack for a moment where others come and go."""
        for _ in range(50):
            row = bound(self.port)
            if row or self.child.poll() is not None:
                break
            time.sleep(0.001)
        check(row, "it has no socket any more, status %s" % self.child.poll())
        return row

    def is_waiting(self):
        row = self.row()
        return int(row[4].split(":")[1], 16) == 0 and state(self.child) == "S"

    def rest(self, spent=-1.0):
        """Until it waits, and has spent more than this: what is sent to it isn't at its socket at once on a busy machine. It says
        whether that was counted: where the host takes processors for others, the system may count nothing of a short time."""
        patience, since = time.monotonic() + 60, None
        while True:
            now = time.monotonic()
            if not self.is_waiting():
                since = None
            elif self.spent() > spent:
                return True
            else:
                since = since or now
                if now > since + UNCOUNTED:
                    return False
            check(now < patience, "it doesn't get through what it was sent")
            time.sleep(0.0001)

    def empty(self):
        """Reads what it replied, so that the socket has room."""
        self.socket.setblocking(False)
        try:
            while True:
                self.socket.recv(65536)
        except OSError:
            pass
        self.socket.setblocking(True)

    def send(self, datagram, host=None):
        if host is None:
            self.socket.send(datagram)
        else:
            self.crowd.send(host, datagram)

    def spends(self, act):
        """The processor time that it takes until it has done what this asks of it, in seconds."""
        began = self.spent()
        act()
        self.rest(began)
        return self.spent() - began

    def ask_all(self, queries):
        """Asks these, some ahead of their replies."""
        self.empty()
        self.socket.settimeout(20)
        for at in range(0, len(queries), 32):
            some = queries[at : at + 32]
            for query in some:
                self.socket.send(query)
            for _ in some:
                self.socket.recv(65536)

    def takes(self, datagrams, host=None, many=MANY, at_once=1):
        """The processor time that one of these takes, in seconds, as the mean over many: each comes once those before it
        are done with, or so many come together, as far as they have a place in its socket."""
        self.rest()
        for _ in range(TRIES):
            began, sent, counted = self.spent(), 0, True
            while counted and sent < many and self.spent() < began + LONG_ENOUGH:
                before = self.spent()
                for at in range(sent, sent + at_once):
                    self.send(datagrams[at % len(datagrams)], host)
                sent += at_once
                counted = self.rest(before)
                self.empty()
            if counted:
                return (self.spent() - began) / sent
        raise Failure("the system doesn't count all of its time")

    def usual(self, datagram, host=None):
        """The processor time that one of some like this takes, in seconds, each once the one before is done with, as their
        median: the least of them may be one that wasn't counted whole."""
        each = []
        for _ in range(EACH):
            each.append(self.spends(lambda: self.send(datagram, host)))
            self.empty()
        return median(counted(each))

    def alone(self, kinds, host=None):
        """The processor time that each of these takes where it comes after a pause, in seconds, as the median of some, in turn: the
        system has to wake the process then, and little of it is in the processor's caches."""
        each = [[] for _ in kinds]
        for _ in range(ALONE):
            for datagram, times in zip(kinds, each):
                times.append(self.spends(lambda: self.send(datagram, host)))
                self.empty()
                time.sleep(PAUSE)
        return tuple(median(counted(times)) for times in each)

    def ask(self, query):
        self.empty()
        self.socket.settimeout(20)
        self.socket.send(query)
        return self.socket.recv(65536)

    def token(self):
        return bdecode(self.ask(asks(b"get", target=bytes(20))))[b"r"][b"token"]

    def open_query(self):
        """An id of a query that is open, the host that was asked, and its name."""
        tx, host = next(iter(self.crowd.asked.items()))
        return tx, host, self.names[host]

    def close(self):
        """Ends it; a second time it does nothing."""
        if self not in Measured.running:
            return
        Measured.running.remove(self)
        if self.child:
            self.child.kill()
            self.child.wait()
        for one in (self.socket, self.crowd):
            if one:
                one.close()


class Walk(Crowd):
    """Contacts that answer, on some paths: on each whoever is asked names one that is nearer to the key. `says(number,
    tx, name, parts)` writes the answer of this number, whose `r` has these parts besides."""

    def __init__(self, key, steps, says):
        self.key, self.steps, self.says, self.number, self.hosts = int.from_bytes(key, "big"), steps, says, 0, {}
        super().__init__(self.answers)

    def contact(self, path, step):
        host = bytes([127, 64 + path, step // 256, step % 256])
        self.hosts[host] = identifier(self.key ^ ((1000 - step) * 2**16 + path))
        return self.hosts[host], host

    def answers(self, host, query):
        step, self.number = host[2] * 256 + host[3], self.number + 1
        near = self.record(*self.contact(host[1] - 64, min(step + 1, self.steps - 1)))
        parts = b"5:nodes" + text(near) + b"5:token8:xxxxxxxx"
        return self.says(self.number, bdecode(query).get(b"t", b""), self.hosts[host], parts)

    def lines(self, paths):
        return "".join(self.line(*self.contact(path, 0)) for path in range(paths))


def strays(node, sealed):
    """What anybody may send the node: the kind and the place, how one is made from its pairs and the same ascending, one that
    is plain, and the host that it comes from, if that is one which was asked. Of one kind, nothing that a place has is looked at
    but to read it, so that all places cost alike."""
    rows = []
    if node.command in ("serve", "node"):
        plain = lambda fill, _: asking("plain", fill)
        for place in QUERY_PLACES:
            rows.append(("a query, %s" % place, lambda fill, _, place=place: asking(place, fill), plain, None))
        token = node.token()
        rows.append(("a put, a's v", lambda fill, _: putting(fill, token), plain, None))
        rows.append(("a put, a's v with a wrong token", lambda fill, _: putting(fill, b"x" * 8), plain, None))
    if node.command == "serve":
        senders = [("an answer to nobody", b"none", None, ASKER)]
    else:
        tx, host, name = node.open_query()
        senders = [("an answer with another id", b"none", host, name), ("an answer from elsewhere", tx, None, name)]
    for kind, tx_said, host, name in senders:
        plain = lambda fill, _, tx=tx_said, name=name: saying("plain", fill, tx, name)
        make = lambda fill, _, tx=tx_said, name=name: saying("r", fill, tx, name, GIVEN)
        rows.append(("%s, r beside nodes" % kind, make, plain, host))
        for place in REPLY_PLACES:
            make = lambda fill, _, place=place, tx=tx_said, name=name: saying(place, fill, tx, name)
            rows.append(("%s, %s" % (kind, place), make, plain, host))
            if sealed:
                make = lambda fill, up, place=place, tx=tx_said, name=name: tagged(place, fill, up, tx, name)
                rows.append(("%s, tagged, %s" % (kind, place), make, plain, host))
    if sealed and node.command != "serve":
        tx, host, name = node.open_query()
        plain = lambda fill, _: saying("plain", fill, tx, name, tag=bytes(20))
        for place in REPLY_PLACES:
            make = lambda fill, _, place=place: saying(place, fill, tx, name, tag=bytes(20))
            rows.append(("an answer with a wrong tag, %s" % place, make, plain, host))
    return rows
