"""The threads that answer what a node is asked."""

import os
import signal

from shared.case import ProgramTest
from shared.messages import asks
from shared.program import library, state, until

# Stands before the C library's own: descriptor 3 is told of each thread by a letter.
THREADS_MADE = """
extern void *dlsym(void *, const char *);
extern long write(int, const void *, unsigned long);

int pthread_create(void *thread, const void *about, void *(*begin)(void *), void *with) {
    int (*make)(void *, const void *, void *(*)(void *), void *) = dlsym((void *)-1, "pthread_create");
    write(3, "t", 1);
    return make(thread, about, begin, with);
}
"""


class Workers(ProgramTest):
    def threads_of_a_batch(self, workers, env):
        """How many threads a node made by the time that it had answered 32 datagrams, which came while it was stopped: one batch."""
        made, to = os.pipe()
        server = self.server("--workers", str(workers), env=env, preexec_fn=lambda: os.dup2(to, 3), close_fds=False)
        os.close(to)
        server.ask(asks(b"ping"))
        server.child.send_signal(signal.SIGSTOP)
        self.assertTrue(until(lambda: state(server.child) == "T"), "it isn't stopped")
        for number in range(32):
            server.socket.send(asks(b"ping", b"%d" % number))
        server.child.send_signal(signal.SIGCONT)
        for _ in range(32):
            server.socket.recv(65536)
        server.close()
        with open(made, "rb") as letters:
            return len(letters.read())

    def test_as_many_threads_as_workers_answer_a_batch(self):
        """A batch that one thread answers whatever the words say, or a thread for each datagram. It needs a C compiler.

        Who receives them is one of the workers. On a busy machine a thread may not be made before the batch is over, so up to twenty
        batches are tried; more threads than that are wrong at once."""
        env = {**os.environ, "LD_PRELOAD": library(THREADS_MADE, self.folder())}
        for workers in range(1, 9):
            with self.subTest(workers=workers):
                for _ in range(20):
                    count = self.threads_of_a_batch(workers, env)
                    if count >= workers - 1:
                        break
                self.assertEqual(count, workers - 1, "threads that were made for a batch")
