"""Libraries that stand before the C library of the program, which isn't rebuilt for it: one moves its clock, one counts what it
allocates, one what it holds, and one loses datagrams. Each is a few lines of C without headers, compiled where it is wanted."""

import mmap
import os
import struct
import tempfile

from shared.program import library


class Page:
    """A page that is shared with who is started under `environment`: a library reads or writes it there."""

    def __init__(self, source, variable):
        self.folder = tempfile.TemporaryDirectory()
        path = os.path.join(self.folder.name, "page")
        with open(path, "wb") as file:
            file.write(bytes(4096))
        with open(path, "r+b") as file:
            self.page = mmap.mmap(file.fileno(), 4096)
        self.environment = {"LD_PRELOAD": library(source, self.folder.name), variable: path}

    def numbers(self, count):
        """The first numbers that stand there."""
        return struct.unpack("=%dq" % count, self.page[: 8 * count])

    def put(self, number):
        """Puts the first number."""
        self.page[:8] = number.to_bytes(8, "little")

    def close(self):
        self.page.close()
        self.folder.cleanup()


# ---------------------------------------------------------------------------------------------------------- the clock

# The clock of a program is ahead by the milliseconds that stand in a file, which is mapped.
AHEAD = r"""
extern void *dlsym(void *, const char *);
extern char *getenv(const char *);
extern int open(const char *, int, ...);
extern void *mmap(void *, unsigned long, int, int, int, long);

struct moment { long seconds, parts; };
static int (*own)(int, struct moment *);
static const volatile long *ahead;

__attribute__((constructor)) static void begin(void) {
    own = (int (*)(int, struct moment *))dlsym((void *)-1L, "clock_gettime");
    ahead = mmap(0, 4096, 1, 1, open(getenv("CLOCK_AHEAD"), 0), 0);
}

int clock_gettime(int clock, struct moment *at) {
    int status = own(clock, at);
    at->seconds += *ahead / 1000;
    at->parts += *ahead % 1000 * 1000000;
    if (at->parts >= 1000000000) {
        at->parts -= 1000000000;
        at->seconds++;
    }
    return status;
}
"""


class Clock(Page):
    """A clock that is moved ahead."""

    def __init__(self):
        super().__init__(AHEAD, "CLOCK_AHEAD")
        self.ahead = 0

    def move(self, milliseconds):
        self.ahead += milliseconds
        self.put(self.ahead)


# --------------------------------------------------------------------------------------------------------- allocations

# How many allocations there were, and of how many bytes, and how many bytes are held, stands in a file, which is mapped.
# glibc has these names for its own calls; what is taken before the file is mapped counts elsewhere.
COUNTING = r"""
extern char *getenv(const char *);
extern int open(const char *, int, ...);
extern void *mmap(void *, unsigned long, int, int, int, long);
extern void *__libc_malloc(unsigned long), *__libc_calloc(unsigned long, unsigned long);
extern void *__libc_realloc(void *, unsigned long);
extern void __libc_free(void *);
extern unsigned long malloc_usable_size(void *);

static struct { long calls, bytes, held; } early, *counts = &early;

__attribute__((constructor)) static void begin(void) {
    counts = mmap(0, 4096, 3, 1, open(getenv("COUNTS"), 2), 0);
}

static void add(long *count, long n) { __atomic_add_fetch(count, n, __ATOMIC_SEQ_CST); }

static unsigned long counted(unsigned long n) {
    add(&counts->calls, 1);
    add(&counts->bytes, n);
    return n;
}

static void *held(void *p) {
    add(&counts->held, malloc_usable_size(p));
    return p;
}

static void *left(void *p) {
    add(&counts->held, -malloc_usable_size(p));
    return p;
}

void *malloc(unsigned long n) { return held(__libc_malloc(counted(n))); }
void *calloc(unsigned long n, unsigned long m) { counted(n * m); return held(__libc_calloc(n, m)); }
void *realloc(void *p, unsigned long n) { return held(__libc_realloc(left(p), counted(n))); }
void free(void *p) { __libc_free(left(p)); }
"""


class Counts(Page):
    """Counts allocations."""

    def __init__(self):
        super().__init__(COUNTING, "COUNTS")

    def so_far(self):
        """How many there were, and of how many bytes."""
        return self.numbers(2)

    def held(self):
        """How many bytes are held, by the C library's own measure."""
        return self.numbers(3)[2]

    def taken(self, node, datagram, host):
        """How many allocations the node makes for this datagram, and of how many bytes."""
        before = self.so_far()
        node.spends(lambda: node.send(datagram, host))
        node.empty()
        return tuple(after - there for there, after in zip(before, self.so_far()))


# ----------------------------------------------------------------------------------------------------------- datagrams

# Of the datagrams that come each fifth is lost.
LOSING = r"""
extern void *dlsym(void *, const char *);

static long (*own)(int, void *, unsigned long, int, void *, void *);
static long came;

__attribute__((constructor)) static void begin(void) { own = dlsym((void *)-1L, "recvfrom"); }

long recvfrom(int socket, void *room, unsigned long size, int flags, void *from, void *length) {
    for (;;) {
        long got = own(socket, room, size, flags, from, length);
        if (got < 0 || __atomic_add_fetch(&came, 1, __ATOMIC_SEQ_CST) % 5)
            return got;
    }
}
"""
