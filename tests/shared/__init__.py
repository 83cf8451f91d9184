"""What the tests share with interop/ and bench/: the messages of BEP 5, peers on loopback, and the built program.

A script outside tests/ puts that folder in front of its path, and then says `from shared.messages import bencode`."""
