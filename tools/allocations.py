"""Runs of the program in which one allocation fails, or one write or send, or the first accepts.

What lets it fail is a library that is loaded before the C library. It also counts what was asked
for, and what wasn't given back.
"""

import os
import subprocess
from typing import NamedTuple

from sockets import PROGRAM, SAMPLES, SECONDS

# More than any run asks for.
AMPLE = 1_000_000
OUT_OF_MEMORY = (5, b"out of memory\n")
ALL_STRINGS = os.path.join(SAMPLES, "mc-nbfs.csv")
# What the C library has for a thread it asks for in a way that isn't counted, and keeps it for the next
# one. It would free it, which is counted, once the stacks of threads that are over take 40 MiB.
KEPT_STACKS = "glibc.pthread.stack_cache_size=1073741824"
# Fails the call with a number, from 1, of all that ask for memory, and writes at the end how many
# did, and how many more gave memory than gave it back. Fails the write of the output, the send over a
# socket, and the start of a thread, with a number, if there is one, and writes how many of each there
# were; reads at most so many bytes at a time, or random numbers up to that by a seed, if there is one.
# Fails so many accepts of a connection, from the first on, with this error.
# A program that has threads ends by _exit, at which no destructor runs.
SHIM = r"""
#define _GNU_SOURCE
#include <dlfcn.h>
#include <fcntl.h>
#include <stdio.h>
#include <errno.h>
#include <pthread.h>
#include <stdlib.h>
#include <sys/socket.h>
#include <sys/syscall.h>
#include <unistd.h>
static _Atomic long calls, wanted, live, writes, sends, threads, alone;
__attribute__((destructor)) static void tell(void) {
    long told = calls, kept = live, put = writes, sent = sends, begun = threads, first = alone;
    int file = open(getenv("ALLOCATIONS"), O_WRONLY | O_CREAT | O_TRUNC, 0600);
    dprintf(file, "%ld %ld %ld %ld %ld %ld", told, kept, put, sent, begun, first);
}
void _exit(int status) {
    tell();
    syscall(SYS_exit_group, status);
    __builtin_unreachable();
}
static long told_by(const char *name) {
    const char *text = getenv(name);
    return text ? atol(text) : 0;
}
ssize_t write(int file, const void *bytes, size_t n) {
    static ssize_t (*next)(int, const void *, size_t);
    if (!next) next = dlsym(RTLD_NEXT, "write");
    if (file == 1 && ++writes == told_by("FAIL_WRITE")) {
        errno = EIO;
        return -1;
    }
    return next(file, bytes, n);
}
ssize_t send(int socket, const void *bytes, size_t n, int flags) {
    static ssize_t (*next)(int, const void *, size_t, int);
    if (!next) next = dlsym(RTLD_NEXT, "send");
    if (++sends == told_by("FAIL_SEND")) {
        errno = EPIPE;
        return -1;
    }
    return next(socket, bytes, n, flags);
}
int accept4(int socket, struct sockaddr *from, socklen_t *size, int flags) {
    static int (*next)(int, struct sockaddr *, socklen_t *, int);
    static long accepts;
    if (!next) next = dlsym(RTLD_NEXT, "accept4");
    if (accepts++ < told_by("FAIL_ACCEPTS")) {
        errno = told_by("ACCEPT_ERROR");
        return -1;
    }
    return next(socket, from, size, flags);
}
int pthread_create(pthread_t *thread, const pthread_attr_t *how, void *(*work)(void *), void *with) {
    static int (*next)(pthread_t *, const pthread_attr_t *, void *(*)(void *), void *);
    if (!next) next = dlsym(RTLD_NEXT, "pthread_create");
    if (++threads == 1) alone = calls;
    return threads == told_by("FAIL_THREAD") ? EAGAIN : next(thread, how, work, with);
}
static size_t most_read(void) {
    static unsigned state;
    size_t most = told_by("MOST_READ");
    if (!most || !told_by("READ_SEED")) return most;
    if (!state) state = told_by("READ_SEED");
    state = state * 1664525 + 1013904223;
    return 1 + (state >> 8) % most;
}
ssize_t read(int file, void *bytes, size_t n) {
    static ssize_t (*next)(int, void *, size_t);
    size_t most = file == 0 ? most_read() : 0;
    if (!next) next = dlsym(RTLD_NEXT, "read");
    return next(file, bytes, most && most < n ? most : n);
}
static int fails(void) {
    if (!wanted) wanted = atol(getenv("FAIL_ALLOCATION"));
    return ++calls == wanted;
}
static void *given(void *p) {
    if (p) live++;
    return p;
}
void *malloc(size_t n) {
    static void *(*next)(size_t);
    if (!next) next = dlsym(RTLD_NEXT, "malloc");
    return fails() ? 0 : given(next(n));
}
void *realloc(void *p, size_t n) {
    static void *(*next)(void *, size_t);
    if (!next) next = dlsym(RTLD_NEXT, "realloc");
    if (fails()) return 0;
    return p ? next(p, n) : given(next(p, n));
}
void *aligned_alloc(size_t a, size_t n) {
    static void *(*next)(size_t, size_t);
    if (!next) next = dlsym(RTLD_NEXT, "aligned_alloc");
    return fails() ? 0 : given(next(a, n));
}
int posix_memalign(void **p, size_t a, size_t n) {
    static int (*next)(void **, size_t, size_t);
    if (!next) next = dlsym(RTLD_NEXT, "posix_memalign");
    if (fails()) return 12;
    int failed = next(p, a, n);
    if (!failed) live++;
    return failed;
}
void free(void *p) {
    static void (*next)(void *);
    if (!next) next = dlsym(RTLD_NEXT, "free");
    if (p) live--;
    next(p);
}
"""


def few_strings(folder):
    """A few of the published strings, so that most allocations are those of the stream."""
    few = os.path.join(folder, "few.csv")
    with open(ALL_STRINGS) as all_strings, open(few, "w") as some:
        some.writelines(line for number, line in enumerate(all_strings) if number < 40)
    return few


class Counts(NamedTuple):
    """What the library counted in a run."""

    asked: int = 0
    live: int = 0
    writes: int = 0
    sends: int = 0
    threads: int = 0
    alone: int = 0

    def shared(self, went_on):
        """Of the allocations before the first thread starts, how many in a row up to the last one are
        among these; None where no thread starts."""
        if not self.threads:
            return None
        return next(count for count in range(self.asked + 1) if self.alone - count not in went_on)


class Failing(NamedTuple):
    """How many runs there were in which something failed, how many of them ended otherwise than with
    nothing failing, and how many wrongly; and of the allocations before a thread starts, without how
    many the runs went on, or None where no thread starts."""

    runs: int
    ended: int
    wrong: int
    shared: int = None


class Shim:
    """The library, built in a folder, and what it counted in the last run."""

    def __init__(self, folder):
        source = os.path.join(folder, "shim.c")
        self.library = os.path.join(folder, "shim.so")
        with open(source, "w") as file:
            file.write(SHIM)
        words = ["cc", "-shared", "-fPIC", "-O1", "-o", self.library, source, "-ldl"]
        subprocess.run(words, check=True)

    def told(self, number, more={}):
        """The environment of a run in which this allocation fails."""
        counts = self.library + ".calls"
        if os.path.exists(counts):
            os.remove(counts)
        return {
            "GLIBC_TUNABLES": KEPT_STACKS,
            "LD_PRELOAD": self.library,
            "FAIL_ALLOCATION": str(number),
            "ALLOCATIONS": counts,
            **more,
        }

    def ended(self, words, stream, number, more={}):
        """The status, output and note of a run in which this allocation fails."""
        how = {"input": stream, "capture_output": True, "timeout": SECONDS}
        try:
            ran = subprocess.run([PROGRAM] + words, env=self.told(number, more), **how)
        except subprocess.TimeoutExpired:
            return "hangs", b"", b""
        return ran.returncode, ran.stdout, ran.stderr

    def counts(self):
        """How many allocations the last run asked for, how many were still there at its end, how many
        writes, sends and starts of threads there were, and how many allocations before the first of
        these. A run that was killed counts nothing."""
        try:
            with open(self.library + ".calls") as file:
                return Counts(*(int(number) for number in file.read().split()))
        except FileNotFoundError:
            return Counts()
