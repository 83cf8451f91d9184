"""Addresses on loopback behind which nodes answer as late as over a network: what comes there is handed on to the node after a
while, and what the node answers is handed back.

It needs Python 3 on Linux and nothing else."""

import heapq
import select
import socket
import threading
import time


class Relays:
    """For each node, (address of the relay, address of the node, seconds that it waits), one relay, all by one thread. The socket
    by which it asks the node is at the node's host, so a token that the node gives is one for that host."""

    def __init__(self, places):
        self.outer, self.inner, self.due, self.count = {}, {}, [], 0
        for address, node, wait in places:
            outer, inner = (socket.socket(socket.AF_INET, socket.SOCK_DGRAM) for _ in range(2))
            outer.bind(address)
            inner.bind((node[0], 0))
            inner.connect(node)
            self.outer[outer], self.inner[inner] = (inner, wait), outer
        self.asker = {}  # of each outer socket who asked last
        self.going = True
        self.thread = threading.Thread(target=self.listen, daemon=True)
        self.thread.start()

    def hear(self, own):
        data, source = own.recvfrom(65536)
        if own in self.inner:
            outer = self.inner[own]
            outer.sendto(data, self.asker[outer])
            return
        inner, wait = self.outer[own]
        self.asker[own] = source
        self.count += 1
        heapq.heappush(self.due, (time.monotonic() + wait, self.count, inner, data))

    def listen(self):
        sockets = [*self.outer, *self.inner]
        while self.going:
            until = min(0.1, max(0.0, self.due[0][0] - time.monotonic())) if self.due else 0.1
            for own in select.select(sockets, [], [], until)[0]:
                try:
                    self.hear(own)
                except OSError:
                    continue
            while self.due and self.due[0][0] <= time.monotonic():
                _, _, inner, data = heapq.heappop(self.due)
                inner.send(data)

    def close(self):
        self.going = False
        self.thread.join()
        for own in [*self.outer, *self.inner]:
            own.close()
