"""Strangers at many addresses of 127.0.0.0/8, behind one socket, that ask a node on loopback and read its replies."""

import socket
import struct
import time

from shared.peers import Crowd
from shared.program import Failure

AHEAD = 32  # queries that are sent before their replies are read: as many have a place in a socket


class Hosts:
    """`ask` gives the reply to each (host, datagram), by its place; a host is four bytes. The node is the server's."""

    def __init__(self, server, patience=20):
        self.node, self.child, self.patience = ("127.0.0.1", server.port), server.child, patience
        self.socket = socket.socket(socket.AF_INET, socket.SOCK_DGRAM)
        self.socket.setsockopt(socket.IPPROTO_IP, Crowd.PACKET_INFO, 1)
        self.socket.bind(("0.0.0.0", 0))
        self.socket.settimeout(0.5)
        self.port = self.socket.getsockname()[1]

    def ask(self, queries):
        replies = []
        for at in range(0, len(queries), AHEAD):
            some = queries[at : at + AHEAD]
            for host, datagram in some:
                sent_from = (socket.IPPROTO_IP, Crowd.PACKET_INFO, struct.pack("=i4s4s", 0, host, bytes(4)))
                self.socket.sendmsg([datagram], [sent_from], 0, self.node)
            replies += [self.reply(host) for host, _ in some]
        return replies

    def reply(self, host):
        """The next reply, which is to come to this host, since a node replies in the order in which it was asked."""
        until = time.monotonic() + self.patience
        while True:
            has_ended = self.child.poll() is not None
            try:
                data, info, _, source = self.socket.recvmsg(65536, 64)
                break
            except socket.timeout:
                if has_ended or time.monotonic() > until:
                    raise Failure("no reply to %s, status %s" % (socket.inet_ntoa(host), self.child.poll())) from None
        to = info[0][2][8:12]
        if (source, to) != (self.node, host):
            raise Failure("a reply of %r comes to %s, not %s" % (source, socket.inet_ntoa(to), socket.inet_ntoa(host)))
        return data

    def close(self):
        self.socket.close()


def host_of(number):
    """The address of this number, of those that no other peer of the tests has."""
    return bytes([127, 128 + (number >> 16), number >> 8 & 255, number & 255])


def token_in(reply):
    """The token of a reply, which has eight bytes."""
    at = reply.index(b"5:token8:") + 9
    return reply[at : at + 8]
