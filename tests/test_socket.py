"""What goes through the socket of a lookup and of a node that serves: what it is bound to, whom it asks and whom it believes."""

import fcntl
import os
import signal
import socket
import struct
import termios

from shared.case import ProgramTest, second_try
from shared.messages import OWN, answer, asks, bdecode, found, identifier, line, record, reply
from shared.peers import answers
from shared.program import kept, lookup, node, peers, run, state, until


class Queries(ProgramTest):
    def test_each_run_draws_its_own_identifier_and_ids(self):
        """Random bytes that are all zero, or the same in each run."""
        seen = []
        for _ in range(2):
            peer = self.peer(play=answers)
            self.assertEnds(run(lookup(), peer.line()), 0, peer.line() + "found 1 asked 1 failed 0 turned 0\n")
            query = bdecode(peer.heard[0][0])
            seen.append((query[b"a"][b"id"], query[b"t"]))
        self.assertNotEqual(seen[0][0], seen[1][0], "both runs have this identifier")
        self.assertNotEqual(seen[0][1], seen[1][1], "both runs have this transaction id")
        self.assertTrue(all(any(name) for name, _ in seen), "an identifier is all zero")

    def test_the_query_is_what_bep_5_writes(self):
        """Other bytes on the wire than those that were sent, or a first word that isn't skipped."""
        peer = self.peer(play=answers)
        run(lookup("--own", "ff" * 20), peer.line())
        data = peer.heard[0][0]
        tx = bdecode(data)[b"t"]
        front = b"d1:ad2:id20:" + b"\xff" * 20 + b"6:target20:" + bytes(20)
        self.assertEqual(data, front + b"e1:q9:find_node2:roi1e1:t4:" + tx + b"1:y1:qe")
        self.assertEqual(len(data), 101)

    def test_queries_go_to_the_address_and_port_of_their_contact(self):
        """Datagrams that all go to 127.0.0.1, or to another port."""
        first = self.peer(identifier(1), "127.0.0.1", 0, answers)
        second = self.peer(identifier(2), "127.0.0.2", 0, answers)
        third = self.peer(identifier(3), "127.0.0.2", 0, answers)
        text = "".join(p.line() for p in (first, second, third))
        self.assertEnds(run(lookup(), text), 0, text + "found 3 asked 3 failed 0 turned 0\n")
        self.assertEqual([len(p.heard) for p in (first, second, third)], [1, 1, 1], "queries that each heard")

    def test_a_named_contact_is_asked_at_its_own_address(self):
        """Addresses of records that are read or sent wrong."""
        far = self.peer(identifier(2), "127.0.0.3", 0, answers)
        named = record(far.name, far.host, far.port)
        near = self.peer(play=lambda p, q, s: p.socket.sendto(answer(q, p.name, named), s))
        ended = run(lookup(), near.line())
        self.assertEnds(ended, 0, near.line() + far.line() + "found 2 asked 2 failed 0 turned 0\n")

    @second_try("another program may take the port before the lookup does")
    def test_queries_come_from_the_bound_address(self):
        """An address to bind to that is read wrong, or not at all."""
        free = self.socket("127.0.0.2")
        port = free.getsockname()[1]
        free.close()
        peer = self.peer(play=answers)
        ended = run(lookup("--bind", "127.0.0.2:%d" % port), peer.line())
        self.assertEnds(ended, 0, peer.line() + "found 1 asked 1 failed 0 turned 0\n")
        self.assertEqual(peer.heard[0][1], ("127.0.0.2", port), "where the query came from")

    def test_a_refused_send_is_no_query(self):
        """A refused send that counts as sent: the lookup would wait for its timeout."""
        ended = run(lookup("--timeout", "20000"), line(identifier(1), "255.255.255.255", 9))
        self.assertEnds(ended, 0, found(asked=1, failed=1))
        self.assertLess(ended.seconds, 10)


class Answers(ProgramTest):
    def test_an_answer_from_another_address_is_no_answer(self):
        """Each sender taken for 127.0.0.1."""
        peer = self.peer(play=lambda p, q, s: other.sendto(answer(q, p.name), s))
        other = self.socket("127.0.0.2", peer.port)
        self.assertEnds(run(lookup("--timeout", "300"), peer.line()), 0, "found 0 asked 1 failed 1 turned 0\n")

    def test_an_answer_from_another_port_is_no_answer(self):
        """Ports of senders that are dropped or swapped."""
        other = self.socket()
        peer = self.peer(play=lambda p, q, s: other.sendto(answer(q, p.name), s))
        self.assertEnds(run(lookup("--timeout", "300"), peer.line()), 0, "found 0 asked 1 failed 1 turned 0\n")

    @second_try("a machine that is busy may keep an answer back for 700 ms")
    def test_a_datagram_at_the_limit_is_read_and_one_byte_more_is_not(self):
        """A receive with less room than a datagram may have."""

        def padded(size):
            def play(peer, query, source):
                tx = bdecode(query)[b"t"]
                front = b"d1:rd2:id20:" + peer.name + b"e1:t4:" + tx + b"1:v"
                back = b"1:y1:re"
                room = size - len(front) - len(back)
                text = b"%d:" % (room - 5) + b"v" * (room - 5)
                peer.socket.sendto(front + text + back, source)

            return play

        for size, is_read in ((4096, 1), (4097, 0)):
            with self.subTest(size=size):
                peer = self.peer(play=padded(size))
                ended = run(lookup("--timeout", "700"), peer.line())
                wanted = peer.line() if is_read else ""
                self.assertEnds(ended, 0, wanted + "found %d asked 1 failed %d turned 0\n" % (is_read, 1 - is_read))


class Sockets(ProgramTest):
    def test_a_port_that_is_taken_is_no_socket(self):
        """A bind whose failure is passed over, or an address to bind to that isn't read."""
        taken = self.socket()
        self.assertEnds(run(lookup("--bind", "127.0.0.1:%d" % taken.getsockname()[1]), ""), 14, "no socket\n")

    def open_sockets(self, words):
        """How many sockets a child has open that waits for the rest of its input."""
        child = self.start(words)
        child.stdin.write(b"# a comment\n")
        child.stdin.flush()
        until(lambda: not struct.unpack("i", fcntl.ioctl(child.stdin, termios.FIONREAD, bytes(4)))[0], 20, 0.002)
        files = ["/proc/%d/fd/%s" % (child.pid, name) for name in os.listdir("/proc/%d/fd" % child.pid)]
        return sum(os.readlink(file).startswith("socket:") for file in files)

    def test_only_commands_that_send_open_a_socket(self):
        """A `check` that opens a socket."""
        alone = [[self.program, command] for command in ("check", "table", "serve", "refresh")]
        wanted = {"check": 0, "table": 0, "lookup": 1, "peers": 1, "serve": 1, "node": 1, "refresh": 1}
        open_ones = {words[1]: self.open_sockets(words) for words in (*alone, lookup(), peers(), node())}
        self.assertEqual(open_ones, wanted, "open sockets")

    def test_empty_datagrams_do_not_end_a_node(self):
        """An empty datagram taken for the end of a wait: 1,001 of them would end the node with a link fault."""
        server = self.server("--own", OWN.hex(), "--receives", "1101")
        server.send_all([b""] * 1100)
        self.assertEqual(server.ask(asks(b"ping")), reply(b"aa", OWN))
        self.assertEnds(server.ended(), 0, "received 1101 replied 1\n")

    def test_what_comes_while_a_node_is_stopped_is_kept(self):
        """A socket that isn't asked to keep more than the system keeps for every one."""
        server = self.server("--own", OWN.hex())
        server.child.send_signal(signal.SIGSTOP)
        self.assertTrue(until(lambda: state(server.child) == "T"), "it isn't stopped")
        other = socket.socket(socket.AF_INET, socket.SOCK_DGRAM)
        self.closed_at_the_end(other).setsockopt(socket.SOL_SOCKET, socket.SO_RCVBUF, 4 << 20)
        other.bind(("127.0.0.1", 0))
        ports = server.port, other.getsockname()[1]
        for port in ports * 1500:
            server.socket.sendto(asks(b"ping"), ("127.0.0.1", port))
        until(lambda: kept(ports[0]) == kept(ports[1]))
        self.assertEqual(kept(ports[0]), kept(ports[1]), "bytes that wait, and those that could")
