"""Has a program meet what it seldom meets: what takes the place of malloc and realloc, and of the clocks."""
import mmap
import os
import struct
import subprocess

from building import kit_of

# Which calls of malloc and realloc give nothing: the one whose number is in REFUSED, which is said on standard error.
# Where ORDERS names a file, its four numbers tell that as long as it runs: how many calls there were, the first that is
# refused, after how many more the next is (none where that is nought), and how many were.
REFUSER = """
typedef unsigned long size;
void *__libc_malloc(size);
void *__libc_realloc(void *, size);
char *getenv(const char *);
long atol(const char *);
long write(int, const void *, size);
int open(const char *, int, ...);
void *mmap(void *, size, int, int, int, long);
struct orders { long count, first, step, refused; };
static struct orders own, *orders;
static void begin(void) {
    char *word = getenv("REFUSED"), *path = getenv("ORDERS");
    own.first = word ? atol(word) : 0;
    orders = path ? mmap(0, sizeof own, 3, 1, open(path, 2), 0) : &own;
}
static int is_refused(void) {
    if (!orders) begin();
    long number = __atomic_add_fetch(&orders->count, 1, __ATOMIC_SEQ_CST);
    long beyond = number - __atomic_load_n(&orders->first, __ATOMIC_SEQ_CST);
    long step = __atomic_load_n(&orders->step, __ATOMIC_SEQ_CST);
    if (beyond == number || beyond < 0 || beyond != 0 && (step == 0 || beyond % step != 0)) return 0;
    __atomic_add_fetch(&orders->refused, 1, __ATOMIC_SEQ_CST);
    return orders != &own || write(2, "refused\\n", 8) == 8;
}
void *malloc(size it) { return is_refused() ? 0 : __libc_malloc(it); }
void *realloc(void *old, size it) { return is_refused() ? 0 : __libc_realloc(old, it); }
"""

# What is added to the clocks, in seconds: the two numbers of the file that SKEW names, of which the first is for the
# time of day, and the second for the time that passes.
SKEWER = """
struct moment { long seconds, nanoseconds; };
char *getenv(const char *);
int open(const char *, int, ...);
void *mmap(void *, unsigned long, int, int, int, long);
long syscall(long, ...);
static long *skew;
int clock_gettime(int clock, struct moment *now) {
    long failed = syscall(228, clock, now);
    if (!skew) skew = mmap(0, 16, 1, 1, open(getenv("SKEW"), 0), 0);
    now->seconds += __atomic_load_n(&skew[clock == 0 || clock == 5 ? 0 : 1], __ATOMIC_SEQ_CST);
    return failed;
}
"""


def preloaded(room, name, text):
    """Builds what takes the place of calls of the system's library, in a room, and gives its path, for LD_PRELOAD."""
    with open(f"{room}/{name}.c", "w", encoding="utf-8") as it:
        it.write(text)
    kit = f"{kit_of()}/toolchain"
    flags = ["-shared", "-fPIC", "-O1", "-nostdlib", f"-fuse-ld={kit}/bin/ld.lld", f"{room}/{name}.c"]
    subprocess.run([f"{kit}/bin/clang", *flags, "-o", f"{room}/{name}.so"], check=True)
    return f"{room}/{name}.so"


def refuser(room):
    """What has allocations fail, built in a room: its path."""
    return preloaded(room, "refuser", REFUSER)


class Shared:
    """Numbers that a program reads as long as it runs, in a file of a room."""

    def __init__(self, room, name):
        self.path = f"{room}/{name}"
        with open(self.path, "w+b") as it:
            it.truncate(mmap.PAGESIZE)
            self.octets = mmap.mmap(it.fileno(), mmap.PAGESIZE)

    def __getitem__(self, place):
        return struct.unpack_from("q", self.octets, 8 * place)[0]

    def __setitem__(self, place, number):
        struct.pack_into("q", self.octets, 8 * place, number)


class Orders:
    """Which allocations of a program fail, as long as it runs."""

    def __init__(self, room):
        self.numbers = Shared(room, "orders")
        self.env = {**os.environ, "LD_PRELOAD": refuser(room), "ORDERS": self.numbers.path}

    def refuse(self, number, step=0):
        """The call of this number from now on fails, and each so many calls later, where that isn't nought."""
        self.numbers[1], self.numbers[2] = 0, step
        self.numbers[1] = self.numbers[0] + number

    def refuse_none(self):
        self.numbers[1] = 0

    def calls(self):
        return self.numbers[0]

    def refused(self):
        return self.numbers[3]


class Clocks:
    """What is added to the clocks of a program, as long as it runs."""

    def __init__(self, room):
        self.numbers = Shared(room, "skew")
        self.env = {**os.environ, "LD_PRELOAD": preloaded(room, "skewer", SKEWER), "SKEW": self.numbers.path}

    def set_day(self, seconds):
        """The time of day goes so far from what it was, and no time passes."""
        self.numbers[0] += seconds

    def pass_by(self, seconds):
        """So many seconds pass."""
        self.numbers[0] += seconds
        self.numbers[1] += seconds
