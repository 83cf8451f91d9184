"""Nodes on loopback that a script plays: one, many behind one socket, and one that asks."""

import os
import socket
import struct
import threading
import time

from shared.messages import answer, bdecode, family_of, identifier, line, query


class Peer:
    """A node on loopback. `play(peer, query, source)` answers each datagram; all that came is in `heard`. Whoever makes one
    closes it; closing it twice does nothing."""

    def __init__(self, name=identifier(1), host="127.0.0.1", port=0, play=None):
        self.name, self.host = name, host
        self.socket = socket.socket(socket.AF_INET, socket.SOCK_DGRAM)
        self.socket.bind((host, port))
        self.port = self.socket.getsockname()[1]
        self.play = play
        self.heard = []
        self.closed = False
        self.prepare()
        self.thread = threading.Thread(target=self.listen, daemon=True)
        self.thread.start()

    def prepare(self):
        pass

    def listen(self):
        while not self.closed:
            try:
                data, source = self.socket.recvfrom(65536)
                bdecode(data)
                self.heard.append((data, source))
                if self.play:
                    self.play(self, data, source)
            except (OSError, ValueError):
                pass  # it was closed, or this is another test's noise, to a port that was used again

    def line(self):
        return line(self.name, self.host, self.port)

    def close(self):
        """Ends. The socket is closed once nobody listens: its number is soon another's."""
        if self.closed:
            return
        self.closed = True
        try:
            self.socket.shutdown(socket.SHUT_RDWR)
        except OSError:
            pass  # which it says of each socket that isn't connected
        self.thread.join(5)
        self.socket.close()


class Crowd(Peer):
    """Nodes at many addresses of 127.0.0.0/8 behind one socket. `play(host, query)` gives what the node at a host, four
    bytes, answers, or None."""

    PACKET_INFO = 8  # IP_PKTINFO of Linux, which Python doesn't name everywhere

    def __init__(self, play):
        super().__init__(host="0.0.0.0", play=play)

    def prepare(self):
        self.socket.setsockopt(socket.IPPROTO_IP, self.PACKET_INFO, 1)

    def listen(self):
        while not self.closed:
            try:
                data, info, _, source = self.socket.recvmsg(65536, 64)
                host = info[0][2][8:12]
                text = self.play(host, data)
                if text is not None:
                    sent_from = (socket.IPPROTO_IP, self.PACKET_INFO, struct.pack("=i4s4s", 0, host, bytes(4)))
                    self.socket.sendmsg([text], [sent_from], 0, source)
            except (OSError, IndexError, ValueError):
                pass  # as above

    def line(self, name, host):
        return line(name, socket.inet_ntoa(host), self.port)

    def record(self, name, host):
        return name + host + self.port.to_bytes(2, "big")


def answers(peer, query, source):
    """How a node plays that answers and names nobody."""
    peer.socket.sendto(answer(query, peer.name), source)


def silent(peer, query, source):
    """How a node plays that never answers."""


class Asker:
    """A socket that asks one query at a time. Its queries are read-only unless it is told otherwise, so that who is asked
    keeps no contact of it."""

    def __init__(self, host, port=0, name=None, read_only=True):
        self.family = family_of(host)
        self.socket = socket.socket(self.family.socket, socket.SOCK_DGRAM)
        self.socket.bind((host, port))
        self.address = self.socket.getsockname()[:2]
        self.name, self.read_only = name or os.urandom(20), read_only

    def ask(self, address, method, arguments=None, timeout=1.0):
        """The message that answers, an error message too; None where none comes in time."""
        tx = os.urandom(4)
        want = self.family.want if method in (b"find_node", b"get_peers") else {}
        arguments = {b"id": self.name, **want, **(arguments or {})}
        return self.send(address, query(tx, method, arguments, self.read_only), tx, timeout)

    def send(self, address, datagram, tx, timeout=1.0):
        until = time.monotonic() + timeout
        self.socket.sendto(datagram, address)
        while True:
            self.socket.settimeout(max(until - time.monotonic(), 0.000001))
            try:
                data, source = self.socket.recvfrom(65536)
                message = bdecode(data) if source[:2] == address else {}
            except socket.timeout:
                return None
            except (ConnectionError, ValueError):
                if time.monotonic() >= until:
                    return None
                continue
            if isinstance(message, dict) and message.get(b"t") == tx and message.get(b"y") in (b"r", b"e"):
                return message

    def answer(self, address, method, arguments=None, timeout=1.0):
        """What stands in the answer; empty where there is none."""
        return ((self.ask(address, method, arguments, timeout) or {}).get(b"r")) or {}

    def close(self):
        self.socket.close()
