"""Runs programs in which allocations are refused: the Nth alone, or each from the Nth on.

A small library, loaded before the C library, stands in for malloc and its kin. It counts the calls that come from the
program's own code, not those of the C library, and answers those that are to be refused with no memory. What it counted
lies in a file that it shares with this side, so that it is known however the program ends. The kit's own compiler
builds it, with no headers.
"""
import collections
import concurrent.futures
import os
import struct
import subprocess
import sys

from machine import processors
from program import kit

LIBRARY = r"""
typedef __SIZE_TYPE__ size_t;
typedef __UINT64_TYPE__ uint64_t;
typedef __UINTPTR_TYPE__ uintptr_t;
/* as in <elf.h> and <link.h> of a 64-bit system */
struct part { unsigned type, flags; uint64_t offset, at, physical, in_file, in_memory, align; };
struct object { uintptr_t base; const char *name; const struct part *parts; unsigned short number; };
enum { OUT_OF_MEMORY = 12, LOADED = 1, EXECUTABLE = 1, READ_WRITE = 3, SHARED = 1 };

int *__errno_location(void);
int atoi(const char *text);
char *getenv(const char *name);
unsigned long strtoul(const char *text, char **end, int base);
void *mmap(void *at, size_t size, int protection, int flags, int file, long offset);
int dl_iterate_phdr(int (*call)(struct object *, size_t, void *), void *data);
void *__libc_malloc(size_t size);
void *__libc_calloc(size_t count, size_t size);
void *__libc_realloc(void *block, size_t size);
void *__libc_memalign(size_t align, size_t size);
void __libc_free(void *block);

static struct { uint64_t loaded, asked, refused, got, given_back, first_thread, has_threads; } *counts;
static uint64_t first, last;
static uintptr_t code_begin, code_end;

static int find_code(struct object *object, size_t size, void *unused) {
    for (int i = 0; i < object->number; i++) {
        const struct part *part = &object->parts[i];
        if (part->type == LOADED && part->flags & EXECUTABLE) {
            code_begin = object->base + part->at;
            code_end = code_begin + part->in_memory;
        }
    }
    return 1; /* the program itself comes first, and nothing else is wanted */
}

__attribute__((constructor)) static void begin(void) {
    const char *file = getenv("FAILING_COUNTS");
    if (!file) return;
    first = strtoul(getenv("FAILING_FIRST"), 0, 10);
    last = strtoul(getenv("FAILING_LAST"), 0, 10);
    dl_iterate_phdr(find_code, 0);
    void *shared = mmap(0, sizeof *counts, READ_WRITE, SHARED, atoi(file), 0);
    if (shared == (void *)-1) return;
    counts = shared;
    counts->loaded = 1;
}

static uint64_t add(uint64_t *count) { return __atomic_add_fetch(count, 1, __ATOMIC_RELAXED); }

static int is_program(void *caller) {
    uintptr_t at = (uintptr_t)caller;
    return counts && at >= code_begin && at < code_end;
}

/* whether more than one thread asks for memory */
static void note_thread(void) {
    uint64_t mine = (uint64_t)__builtin_thread_pointer(), found = 0;
    if (__atomic_compare_exchange_n(&counts->first_thread, &found, mine, 0, __ATOMIC_RELAXED, __ATOMIC_RELAXED)) return;
    if (found != mine) __atomic_store_n(&counts->has_threads, 1, __ATOMIC_RELAXED);
}

static int refuses(void *caller) {
    if (!is_program(caller)) return 0;
    note_thread();
    uint64_t number = add(&counts->asked);
    if (number < first || number > last) return 0;
    add(&counts->refused);
    *__errno_location() = OUT_OF_MEMORY;
    return 1;
}

static void *got(void *block, void *caller) {
    if (block && is_program(caller)) add(&counts->got);
    return block;
}

#define CALLER __builtin_return_address(0)
#define GOT(block) (refuses(CALLER) ? 0 : got(block, CALLER))

void *malloc(size_t size) { return GOT(__libc_malloc(size)); }
void *calloc(size_t count, size_t size) { return GOT(__libc_calloc(count, size)); }
void *memalign(size_t align, size_t size) { return GOT(__libc_memalign(align, size)); }
void *aligned_alloc(size_t align, size_t size) { return GOT(__libc_memalign(align, size)); }

int posix_memalign(void **block, size_t align, size_t size) {
    void *made = GOT(__libc_memalign(align, size));
    if (!made) return OUT_OF_MEMORY;
    *block = made;
    return 0;
}

void *realloc(void *block, size_t size) {
    if (!block) return GOT(__libc_malloc(size));
    return refuses(CALLER) ? 0 : __libc_realloc(block, size);
}

void free(void *block) {
    if (block && is_program(CALLER)) add(&counts->given_back);
    __libc_free(block);
}
"""

COUNTS = struct.Struct("=QQQQQQQ")

# the first and the last allocation that are refused, if none is
NONE = (1, 0)
NO_END = 2**64 - 1
# how often a number is tried until it is met: threads ask for more in one run and for fewer in the next
TRIES = 20


class Run:
    """How a program ended, what it wrote, and of its allocations how many it asked for, how many were refused, how many
    blocks it did not give back, and whether several threads asked. A status of None says that it did not end in time;
    one below 0 is a signal's."""

    def __init__(self, ended, counted):
        self.status, self.output, self.errors = ended
        self.asked, self.refused, got, given_back, _, has_threads = counted
        self.kept = got - given_back
        self.has_threads = has_threads > 0

    def killed(self):
        """What a run says that did not end by itself, or nothing."""
        if self.status is None:
            return "it did not end in time"
        return f"it ended on signal {-self.status}" if self.status < 0 else None


def compiler():
    """The kit's C compiler, with its linker."""
    clang, linker = (os.path.join(kit(), "toolchain", "bin", name) for name in ("clang", "ld.lld"))
    return [clang, "--target=x86_64-unknown-linux-gnu", f"--ld-path={linker}", "-nostdinc", "-nostdlib", "-fno-builtin"]


class Runner:
    """Runs programs for at most so many seconds each, with the library, which it builds in that folder."""

    def __init__(self, folder, seconds):
        self.seconds = seconds
        self.library = os.path.join(folder, "failing_malloc.so")
        subprocess.run([*compiler(), "-O2", "-shared", "-fPIC", "-x", "c", "-", "-o", self.library],
                       input=LIBRARY, text=True, check=True)

    def run(self, words, given=b"", refusing=NONE):
        """Runs the program on that input. Its allocations from the first to the last of `refusing` are refused."""
        counts = os.memfd_create("counts")
        try:
            os.ftruncate(counts, COUNTS.size)
            env = {**os.environ, "LD_PRELOAD": self.library, "FAILING_COUNTS": str(counts),
                   "FAILING_FIRST": str(refusing[0]), "FAILING_LAST": str(refusing[1])}
            try:
                done = subprocess.run(words, input=given, env=env, pass_fds=[counts], timeout=self.seconds,
                                      stdout=subprocess.PIPE, stderr=subprocess.PIPE)
                ended = done.returncode, done.stdout, done.stderr
            except subprocess.TimeoutExpired as late:
                ended = None, late.stdout or b"", late.stderr or b""
            loaded, *counted = COUNTS.unpack(os.pread(counts, COUNTS.size, 0))
        finally:
            os.close(counts)
        if not loaded:
            sys.exit(f"{words[0]} did not load the library that refuses allocations")
        return Run(ended, counted)

    def alone(self, words, given, number):
        return self.run(words, given, (number, number))

    def from_it_on(self, words, given, number):
        return self.run(words, given, (number, NO_END))


class Wrongs:
    """What was found wrong, and at which numbers."""

    def __init__(self):
        self.found = collections.defaultdict(list)

    def add(self, what, number):
        self.found[what].append(number)

    def tell(self):
        """Tells of them, and gives how many runs were wrong."""
        for what, numbers in self.found.items():
            print(f"  WRONG: {what}: at {', '.join(map(str, numbers[:5]))}{', ..' * (len(numbers) > 5)}")
        return sum(map(len, self.found.values()))


def in_turn(run, numbers):
    """What `run` gives for each of the numbers, in their order; as many run at once as there are processors."""
    with concurrent.futures.ThreadPoolExecutor(processors()) as pool:
        yield from zip(numbers, pool.map(run, numbers))


def refuse_each(run_at, ample, first=1, last=NO_END, may_vary=False):
    """Refuses each allocation in turn from the first on, and gives each number with its run: up to the last, or until a
    run meets no such allocation, and that one too. `run_at` runs with a number. If threads ask for memory, or the
    number asked for may vary otherwise, a number is tried again until a run meets it."""
    def attempt(number):
        for _ in range(TRIES if may_vary or ample.has_threads else 1):
            run = run_at(number)
            if run.refused or run.status != ample.status:
                break
        return run

    known = min(ample.asked, last)
    yield from in_turn(attempt, range(first, known + 1))
    number = max(first, known + 1)
    while number <= last:
        run = attempt(number)
        yield number, run
        if not run.refused:
            return
        number += 1


def misrefused(number, run, ample, is_alone, may_vary=False):
    """Says how a run's allocations were refused otherwise than they had to be, or nothing: the Nth has to be refused if
    the program asks for as many in ample memory, and nothing else if it is refused alone."""
    if ample.refused:
        return "allocations were refused in ample memory"
    if is_alone and run.refused > 1:
        return f"{run.refused} allocations were refused, and not one"
    if may_vary or ample.has_threads or (run.refused > 0) == (number <= ample.asked):
        return None
    return f"{run.refused} allocations were refused, of the {ample.asked} that are asked for in ample memory"
