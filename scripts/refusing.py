"""Runs a program again and again, each time with a later one of its requests for memory refused.

The program is run with a library in front of the allocator (`LD_PRELOAD`), which the C compiler, `cc` or `CC`, makes. It refuses
one request: the N-th of `malloc`, `calloc`, `realloc`, `aligned_alloc` and `posix_memalign` since the program's start.
"""
import os
import subprocess
from pathlib import Path

# Refuses the request whose number the variable REFUSED_REQUEST has, counted from 1, and makes the file REFUSAL_MARK when it does.
LIBRARY = r"""
#define _GNU_SOURCE
#include <dlfcn.h>
#include <errno.h>
#include <fcntl.h>
#include <stdlib.h>
#include <unistd.h>
static long left = -1;
static int refuses(void) {
    if (left < 0) {
        const char *nth = getenv("REFUSED_REQUEST");
        left = nth ? atol(nth) : 0;
    }
    if (left == 0 || --left > 0) return 0;
    close(open(getenv("REFUSAL_MARK"), O_CREAT | O_WRONLY, 0600));
    errno = ENOMEM;
    return 1;
}
#define NEXT(name) \
    static __typeof__(name) *next; \
    if (!next) next = (__typeof__(name) *)dlsym(RTLD_NEXT, #name)
void *malloc(size_t size) {
    NEXT(malloc);
    return refuses() ? 0 : next(size);
}
void *calloc(size_t count, size_t size) {
    NEXT(calloc);
    return refuses() ? 0 : next(count, size);
}
void *realloc(void *old, size_t size) {
    NEXT(realloc);
    return refuses() ? 0 : next(old, size);
}
void *aligned_alloc(size_t align, size_t size) {
    NEXT(aligned_alloc);
    return refuses() ? 0 : next(align, size);
}
int posix_memalign(void **to, size_t align, size_t size) {
    NEXT(posix_memalign);
    return refuses() ? ENOMEM : next(to, align, size);
}
"""
# How many requests a run may make.
MOST = 20_000


class TooMany(Exception):
    """A run makes more requests than are refused in turn."""


class Refuser:
    """The library, in a folder that the caller removes."""

    def __init__(self, folder):
        self.library, self.mark = Path(folder, "refusing.so"), Path(folder, "mark")
        source = self.library.with_suffix(".c")
        source.write_text(LIBRARY, encoding="utf-8")
        command = [os.environ.get("CC", "cc"), "-O1", "-shared", "-fPIC", "-fno-builtin", "-o", self.library, source, "-ldl"]
        subprocess.run(command, check=True)

    def runs(self, run):
        """What `run` returns with the first request refused, with the second one, and so on, until the program makes no more:
        the number of each, and what came. `run` is called with the variables of the program's environment."""
        for nth in range(1, MOST):
            environment = {"LD_PRELOAD": str(self.library), "REFUSED_REQUEST": str(nth), "REFUSAL_MARK": str(self.mark)}
            got = run(environment)
            if not self.mark.exists():
                return
            self.mark.unlink()
            yield nth, got
        raise TooMany(f"it makes more than {MOST - 1:,} requests")
