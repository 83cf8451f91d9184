"""A node that looks up, announces and stores while it answers others."""

import hashlib
import signal

from shared.case import ProgramTest
from shared.messages import OWN, asks, bdecode, bencode, counts, find, found, gives, identifier, line, query, record, reply
from shared.peers import answers
from shared.program import Failure, ended, free_port, hand, node, run, state, until


def heard_at(peer, count):
    """The next datagrams at a socket, and whom they come from."""
    try:
        return [peer.recvfrom(65536) for _ in range(count)]
    except OSError as error:
        raise Failure("no datagram came: %s" % error)


class Node(ProgramTest):
    def test_a_node_answers_a_stranger_while_it_looks_up(self):
        """A node that answers nobody before its lookups are over, or whose queries say that it answers none."""
        stranger, came = self.socket(), []
        stranger.settimeout(5)

        def behind_the_stranger(peer, query, source):
            stranger.sendto(asks(b"ping"), source)
            came.append(stranger.recv(65536))
            answers(peer, query, source)

        peer = self.peer(play=behind_the_stranger)
        ended = run(node(), peer.line() + find(bytes(20)))
        self.assertEnds(ended, 0, find(bytes(20)) + found(peer.line(), asked=1) + "received 2 replied 1\n")
        self.assertEqual(came, [reply(b"aa", OWN)], "the replies")
        asked = peer.heard[0][0]
        self.assertEqual(len(asked), 94, "bytes of the query %r" % asked)
        self.assertNotIn(b"ro", bdecode(asked))

    def test_the_lookups_of_a_node_go_at_the_same_time(self):
        """Lookups that go one after the other, or from several sockets: nobody answers before all sixteen have asked."""
        asked = []

        def once_all_have_asked(peer, query, source):
            asked.append((query, source))
            if len(asked) == 16:
                for query, source in asked:
                    answers(peer, query, source)

        peer = self.peer(play=once_all_have_asked)
        targets = [identifier(n << 80) for n in range(16)]
        ended = run(node(), peer.line() + "".join(map(find, targets)))
        each = "".join(find(target) + found(peer.line(), asked=1) for target in targets)
        self.assertEnds(ended, 0, each + "received 16 replied 0\n")
        self.assertEqual({source for _, source in asked}, {asked[0][1]}, "where they ask from")
        self.assertEqual(sorted(bdecode(query)[b"a"][b"target"] for query, _ in asked), targets, "they ask for others")

    def test_a_node_that_joins_a_network_is_found(self):
        """A node that nobody takes into a table, or that ends with its lookups although it has receive calls left."""
        server, port = self.server("--own", identifier(1).hex()), free_port()
        first, joining = line(identifier(1), "127.0.0.1", server.port), line(OWN, "127.0.0.1", port)
        child = self.start(node("--bind", "127.0.0.1:%d" % port, "--receives", "1000"))
        hand(child, first + find(OWN))
        about_it = query(b"aa", b"find_node", {b"id": identifier(7), b"target": OWN}, read_only=True)
        until(lambda: record(OWN, "127.0.0.1", port) in server.ask(about_it))
        ended = run([self.program, "lookup", "--target", OWN.hex()], first)
        self.assertEnds(ended, 0, found(joining, first, asked=2))

    def test_a_node_does_work_of_all_kinds(self):
        """A node whose queries say that it answers none (`ro`), also those behind its lookups; one that tells others before its
        lookups are over, by the token of another line, or in another order; one that leaves what comes meanwhile unanswered, while
        it looks up or between what it tells; a value printed under another line."""
        contact, name, key = self.socket(), identifier(1), identifier(5)
        contact.settimeout(5)
        held, stored = (hashlib.sha1(bencode(text)).digest() for text in (b"held", b"stored"))
        begins = line(name, "127.0.0.1", contact.getsockname()[1])
        lines = ("announce %s 6882" % key.hex(), "put " + bencode(b"stored").hex(), "peers " + key.hex(), "get " + held.hex())
        child = self.start(node("--timeout", "20000"))
        hand(child, begins + "".join(one + "\n" for one in lines))
        queries = heard_at(contact, 4)
        source = queries[0][1]
        contact.sendto(asks(b"ping"), source)
        pong = heard_at(contact, 1)[0][0]
        child.send_signal(signal.SIGSTOP)  # so that the last answer and what comes behind it are there at once
        until(lambda: state(child) in "TZ", 20, 0.0005)
        first, other = b"\x7f\0\0\1\x1a\xe1", b"\x0a\0\0\x09\0\1"
        given = ({"token": b"one", "values": [first]}, {"token": b"two"}, {"token": b"three", "values": [first, other]})
        for (asked, _), more in zip(queries, (*given, {"token": b"four", "v": b"held"})):
            contact.sendto(gives(asked, name, **more), source)
        contact.sendto(asks(b"ping", tx=b"bb"), source)
        child.send_signal(signal.SIGCONT)
        said = heard_at(contact, 3)
        came = ended(child, 20)
        self.assertAsks(queries, key, stored, held)
        self.assertEqual(pong, reply(b"aa", OWN), "the first reply")
        self.assertTells(said, [bdecode(asked)[b"t"] for asked, _ in queries], key)
        self.assertEqual({one for _, one in queries + said}, {source}, "where they come from")
        each = counts(1, asked=1)
        wanted = lines[0] + "\n127.0.0.1:6881\npeers 1 %s announced 1\n" % each
        wanted += "put %s\nkey %s\n%s stored 1\n" % (stored.hex(), stored.hex(), each)
        wanted += lines[2] + "\n10.0.0.9:1\n127.0.0.1:6881\npeers 2 %s announced 0\n" % each
        wanted += lines[3] + "\nvalue %s\n%s\n" % (bencode(b"held").hex(), each) + "received 6 replied 2\n"
        self.assertEnds(came, 0, wanted)

    def assertAsks(self, queries, key, stored, held):
        """The queries of its lookups, one for each of its lines."""
        methods = [(bdecode(asked)[b"q"], bdecode(asked)[b"a"]) for asked, _ in queries]
        wanted = [(b"get_peers", {b"id": OWN, b"info_hash": key}), (b"get", {b"id": OWN, b"target": stored})]
        wanted += [(b"get_peers", {b"id": OWN, b"info_hash": key}), (b"get", {b"id": OWN, b"target": held})]
        self.assertEqual(methods, wanted, "what it asks")
        self.assertFalse(any(b"ro" in bdecode(asked) for asked, _ in queries), "a query says that it answers none")

    def assertTells(self, said, ids, key):
        """What it tells behind its lookups, with a reply between, each query by an identifier of its own."""
        announced, between, put = (bdecode(datagram) for datagram, _ in said)
        ids = [*ids, announced[b"t"], put[b"t"]]
        self.assertEqual(len(set(ids)), 6, "the ids are %r" % ids)
        self.assertEqual({len(one) for one in ids}, {4}, "bytes of the ids")
        arguments = {b"id": OWN, b"info_hash": key, b"port": 6882, b"token": b"one"}
        told = {b"a": arguments, b"q": b"announce_peer", b"t": ids[4], b"y": b"q"}
        self.assertEqual(announced, told, "what comes behind the lookups")
        self.assertEqual(bencode(announced), said[0][0], "what comes behind the lookups")
        self.assertEqual(between, {b"r": {b"id": OWN}, b"t": b"bb", b"y": b"r"}, "what comes then")
        told = {b"a": {b"id": OWN, b"token": b"two", b"v": b"stored"}, b"q": b"put", b"t": ids[5], b"y": b"q"}
        self.assertEqual(put, told, "what comes last")
        self.assertEqual(bencode(put), said[2][0], "what comes last")
