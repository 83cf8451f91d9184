"""The key of a group: where it comes from, the tags that it makes, and that nothing shows it."""

import os
import subprocess

from shared.case import ProgramTest, second_try
from shared.messages import KEY, OTHER_KEY, OWN, TARGET, answer, asks, bdecode, bencode, found, identifier, in_group, tag, tagged
from shared.program import ROOT, lookup, run


class Groups(ProgramTest):
    def test_a_group_of_the_environment_is_two_words_more(self):
        """A key of the environment that isn't taken, or is where the words name one or the command has none; one that is printed."""

        def given(key, words, text="xyz"):
            return run(words, text, env={**os.environb, b"NOLZAVIRT_GROUP": key})

        key = b"5e" * 32
        self.assertEnds(given(key, lookup()), 3, "bad line 1\n")
        self.assertEnds(given(b"", lookup()), 3, "bad line 1\n")
        for wrong in (key[1:], key + b"5", b"g" + key[1:], b" " + key, b"\xff", b"--k"):
            with self.subTest(key=wrong):
                self.assertEnds(given(wrong, lookup()), 2, "usage\n")
                self.assertEnds(given(wrong, [self.program, "serve"]), 2, "usage\n")
                self.assertEnds(given(wrong, lookup("--group", key.decode())), 3, "bad line 1\n")
                self.assertEnds(given(wrong, [self.program, "check"]), 3, "bad line 1\n")
        self.assertEnds(given(key, lookup("--group", "5e")), 2, "usage\n")
        self.assertEnds(given(key, lookup("--timeout")), 2, "usage\n")

    def test_a_member_tags_its_replies(self):
        """Tags of another key than that of the words, or of the variable; tags of who asks; tags of a node without a key."""
        named = ["--group", KEY.hex()]
        queries = (asks(b"ping"), asks(b"find_node", target=bytes(20)), asks(b"get_peers", info_hash=bytes(20)), asks(b"vote"))
        for more, env in ((named, None), ([], in_group(KEY)), (named, in_group(OTHER_KEY))):
            server = self.server("--own", OWN.hex(), *more, env=env)
            for query in queries:
                said = bdecode(server.ask(query))
                came = said.pop(b"sg", None)
                self.assertEqual(came, tag(KEY, OWN, bencode(said)), "the tag of %r" % said)
            server.close()
        server = self.server("--own", OWN.hex())
        self.assertNotIn(b"sg", bdecode(server.ask(asks(b"ping"))), "a node without a key has a tag")

    @second_try("a machine that is busy may keep an answer back for 300 ms")
    def test_a_lookup_of_a_group_believes_its_tags_alone(self):
        """An answer that is believed without a tag, by one of another key or of another node; one of the group that isn't."""
        alone, named = lookup("--timeout", "300"), lookup("--timeout", "300", "--group", KEY.hex())
        ours = lambda p, text: tagged(KEY, p.name, text)
        rows = {
            "its key, by words": (ours, named, {}, True),
            "its key, by words and not by the variable": (ours, named, {"env": in_group(OTHER_KEY)}, True),
            "its key, by the variable": (ours, alone, {"env": in_group(KEY)}, True),
            "another key of the variable": (ours, alone, {"env": in_group(OTHER_KEY)}, False),
            "a tag, and no key": (ours, alone, {}, True),
            "another key of the tag": (lambda p, text: tagged(OTHER_KEY, p.name, text), named, {}, False),
            "another node's tag": (lambda p, text: tagged(KEY, identifier(9), text), named, {}, False),
            "no tag": (lambda p, text: text, named, {}, False),
        }
        for name, (says, words, options, is_heard) in rows.items():
            with self.subTest(name):
                peer = self.peer(play=lambda p, q, s: p.socket.sendto(says(p, answer(q, p.name)), s))
                wanted = found(peer.line(), asked=1) if is_heard else found(asked=1, failed=1)
                self.assertEnds(run(words, peer.line(), **options), 0, wanted)

    def test_a_refusal_shows_no_key(self):
        """A key of a group that the launcher, or the program, prints where it refuses the words."""
        key = KEY.hex()
        wrong = [
            (["lookup", "--target", TARGET, "--group", key + "5"], None),
            (["lookup", "--target", TARGET], {**os.environ, "NOLZAVIRT_GROUP": key + "5"}),
            (["serve", "--group=" + key], None),
            (["sim", "--group", key], None),
            (["sim", "--group=" + key], None),
        ]
        for words, env in wrong:
            for program in (os.path.join(ROOT, "nolzavirt"), self.program):
                said = subprocess.run([program, *words], stdin=subprocess.DEVNULL, capture_output=True, env=env)
                self.assertEqual((said.returncode, said.stdout), (2, b"usage\n"), "%s: %r" % (words[:1], said))
                self.assertNotIn(key.encode(), said.stderr, "the key is shown")
