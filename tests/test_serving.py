"""What a node that serves replies to each kind of query, and that no kind of datagram costs it memory with time."""

import hashlib

from shared.case import ProgramTest
from shared.messages import OWN, asks, bdecode, bencode, identifier, in_group, keyed, line, minted, record, reply
from shared.program import limited

WARM, OFTEN, OFTEN_OF_ITEMS = 2_000, 50_000, 20_000  # datagrams of a kind before memory is measured, and then
GROWN = 256  # KiB that a node may take more meanwhile


def kinds_of_query(token):
    """A query of each kind that has a reply, but for its transaction id, and what the reply has beside its `t`."""
    key = bytes(20)
    here = lambda **more: {b"r": {b"id": OWN, **keyed(more)}, b"y": b"r"}
    refused = lambda code, text: {b"e": [code, text], b"y": b"e"}
    announced = dict(info_hash=key, port=6881)
    return {
        "ping": (lambda tx: asks(b"ping", tx), lambda near: here()),
        "find_node": (lambda tx: asks(b"find_node", tx, target=key), lambda near: here(nodes=near)),
        "get_peers": (lambda tx: asks(b"get_peers", tx, info_hash=key), lambda near: here(nodes=near, token=token)),
        "announce_peer": (lambda tx: asks(b"announce_peer", tx, token=token, **announced), lambda near: here()),
        "announce_peer with a wrong token": (
            lambda tx: asks(b"announce_peer", tx, token=b"x" * 8, **announced),
            lambda near: refused(203, b"Bad Token"),
        ),
        "an unknown method": (lambda tx: asks(b"vote", tx), lambda near: refused(204, b"Method Unknown")),
    }


ITEMS = 4_096  # items that a node holds at most


def value(number):
    """A value of bencode, one for each number."""
    return b"%06d" % number + bytes(90)


def kinds_of_item(token):
    """Queries of items, to a node that holds as many as it may."""
    held = hashlib.sha1(bencode(value(0))).digest()
    return {
        "a get of what is held": asks(b"get", target=held),
        "a get of what isn't": asks(b"get", target=bytes(20)),
        "a put of what is held": asks(b"put", token=token, v=value(0)),
        "a put that finds no place": asks(b"put", token=token, v=value(ITEMS)),
        "a put with a wrong token": asks(b"put", token=b"x" * 8, v=value(0)),
        "a put that is too big": asks(b"put", token=token, v=bytes(1_001)),
    }


class Replies(ProgramTest):
    def test_a_transaction_id_of_0_to_32_bytes_is_answered(self):
        """An empty transaction id taken for lack of memory, one that is cut, or a longer one that is answered."""
        server = self.server("--own", OWN.hex())
        server.ask(asks(b"ping"))
        asker = record(identifier(7), "127.0.0.1", server.socket.getsockname()[1])
        kinds = kinds_of_query(server.token())
        announce = kinds.pop("announce_peer")
        for kind, (query, named) in {**kinds, "announce_peer": announce}.items():  # the last, since from then on a peer is listed
            with self.subTest(kind):
                for size in range(33):
                    tx = bytes(range(size))
                    self.assertEqual(server.ask(query(tx)), bencode({**named(asker), b"t": tx}), "with %d bytes" % size)
                if kind != "announce_peer":
                    server.socket.send(query(bytes(33)))
                    self.assertEqual(server.ask(query(b"next")), bencode({**named(asker), b"t": b"next"}), "with 33 bytes")

    def test_the_longest_reply_is_sent_whole(self):
        """Replies that are cut, to 1,400 bytes say, or to 50 peers of other ports."""
        nobody, key = bytes(20), bytes(20)
        nodes = [(*minted(number), "10.0.0.%d" % number) for number in range(20)]
        text = "".join("%s %s %s\n" % (line(name, host, 6881).strip(), k.hex(), nobody.hex()) for name, k, host in nodes)
        server = self.server("--own", OWN.hex(), "--k", "20", "--c1", "0", text=text)
        token = server.token()
        for port in range(60, 0, -1):
            server.ask(asks(b"announce_peer", info_hash=key, port=port, token=token))
        tx, nodes = bytes(range(32)), sorted(nodes)
        parts = {
            b"id": OWN,
            b"nodes": b"".join(record(name, host, 6881) for name, _, host in nodes),
            b"snodes": b"".join(name + k + nobody + record(b"", host, 6881) for name, k, host in nodes),
            b"token": token,
            b"values": [record(b"", "127.0.0.1", port) for port in range(1, 51)],
        }
        wanted = bencode({b"r": parts, b"t": tx, b"y": b"r"})
        self.assertEqual(len(wanted), 2609, "bytes of the test's own reply")
        self.assertEqual(server.ask(asks(b"get_peers", tx, info_hash=key)), wanted)


class Memory(ProgramTest):
    def assertTakesNoMore(self, server, owed, silent, often):
        """That many datagrams of each kind leave a node's memory as it is."""
        for times in (WARM, often):
            before = server.resident()
            for kind, query in owed.items():
                server.ask_all([query] * times)
                grown = server.resident() - before
                self.assertTrue(times == WARM or grown < GROWN, "%s: %d KiB more" % (kind, grown))
            for kind, datagram in silent.items():
                server.send_all([datagram] * (times // 10))
                server.ask(asks(b"ping"))
                grown = server.resident() - before
                self.assertTrue(times == WARM or grown < GROWN, "%s: %d KiB more" % (kind, grown))

    def test_serving_takes_no_more_memory_with_time(self):
        """An answer or a refusal that leaks, or that takes room without bounds: 50,000 datagrams of each kind."""
        text = "".join(line(identifier(n * 2**150), "127.0.0.1", n) for n in range(1, 20))
        server = self.server(text=text, preexec_fn=limited(4))
        token = server.token()
        for port in range(1, 60):
            server.ask(asks(b"announce_peer", info_hash=bytes(20), port=port, token=token))
        owed = {kind: query(b"aa") for kind, (query, _) in kinds_of_query(token).items()}
        silent = {
            "no bencode": b"x" * 40,
            "a dictionary in 17 others": b"d1:a" * 17 + b"de" + b"e" * 17,
            "no query": reply(b"aa", OWN),
            "a long transaction id": asks(b"ping", bytes(33)),
            "more than 4,096 bytes": asks(b"ping", v=bytes(4096)),
        }
        self.assertTakesNoMore(server, owed, silent, OFTEN)

    def test_items_take_no_more_memory_with_time(self):
        """A value that leaks where it is handed out, renewed or refused, or a tag: 20,000 datagrams of each kind, to a node that
        holds all items that it may, in a group and without one."""
        for name, env in {"no group": None, "a group": in_group(bytes(32))}.items():
            with self.subTest(name):
                server = self.server(env=env)
                token = server.token()
                server.ask_all([asks(b"put", token=token, v=value(number)) for number in range(ITEMS)])
                kinds = kinds_of_item(token)
                replies = [bdecode(server.ask(query)) for query in kinds.values()]
                self.assertEqual(replies[0][b"r"][b"v"], value(0), "what is got")
                self.assertNotIn(b"v", replies[1][b"r"], "what is got")
                codes = [said[b"e"][0] if b"e" in said else None for said in replies[2:]]
                self.assertEqual(codes, [None, 202, 203, 205], "by what is refused what is put")
                self.assertTakesNoMore(server, kinds, {}, OFTEN_OF_ITEMS)
                server.close()
