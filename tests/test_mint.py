"""The commands that take no socket: what they draw, and what they are given."""

import hashlib

from shared.case import ProgramTest
from shared.program import run


class Mint(ProgramTest):
    def test_a_minted_node_passes_the_check(self):
        """A seed, a limit or an input that doesn't reach the commands that take no socket, and one that they open."""
        key = "e2dba9f1110fc392ed891d13de44f2e7f2c814d991e6d61252596e9e372640e6"
        name, value = hashlib.sha1(bytes.fromhex(key)).hexdigest(), "00" * 20
        mint = [self.program, "mint", "--c1", "8", "--c2", "8", "--seed", "00" * 32]
        self.assertEnds(run(mint), 0, "%s %s %s\n" % (name, key, value))
        self.assertEnds(run(mint + ["--tries", "202"]), 10, "unminted\n")
        nodes = "%s 127.0.0.1:6001\n%s 127.0.0.1:6002 %s %s\n" % ("00" * 20, name, key, value)
        self.assertEnds(run([self.program, "check", "--c1", "8", "--c2", "8"], nodes), 0, "fail\npass\npassed 1 of 2\n")
        self.assertEnds(run([self.program, "check"], nodes + "xyz"), 3, "bad line 3\n")

    def test_each_mint_draws_all_its_bytes(self):
        """Few random bytes that are drawn, so that two of sixty identities are one, or a byte that is always the same."""
        identities = [run([self.program, "mint"]).out.split() for _ in range(60)]
        self.assertEqual(len({tuple(one) for one in identities}), 60, "two of sixty are one")
        for part, what in enumerate(("identifiers", "keys")):
            columns = zip(*(bytes.fromhex(one[part].decode()) for one in identities))
            same = [at for at, column in enumerate(columns) if len(set(column)) == 1]
            self.assertEqual(same, [], "bytes that all %s share" % what)
