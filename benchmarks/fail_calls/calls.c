/* A library that stands before the C library, so that calls of the system fail or do less than asked.
 *
 * FAIL_READ, FAIL_WRITE: the number of the call that fails. SHORT_READS, SHORT_WRITES: every call moves one byte.
 * INTERRUPTED_READS, INTERRUPTED_WRITES: of three calls a signal interrupts the first two.
 * EACH_ALLOCATION: the path of a script, which the program is given. At each allocation two copies of the process are made: in
 * one this allocation is refused, in the other it and all that follow. How each ends, and what it writes, is told on file 9, once
 * for each outcome: a line `KIND NUMBER STATUS LENGTH`, then the bytes; at last `runs RUNS ALLOCATIONS`. With TELL_CALLS file 9 is
 * told how often the program allocated, read and wrote. */
#define _GNU_SOURCE
#include <errno.h>
#include <fcntl.h>
#include <stddef.h>
#include <stdio.h>
#include <stdlib.h>
#include <string.h>
#include <sys/mman.h>
#include <sys/stat.h>
#include <sys/syscall.h>
#include <sys/wait.h>
#include <unistd.h>

extern void *__libc_malloc(size_t size);
extern void *__libc_realloc(void *block, size_t size);

enum { ROOM = 1 << 24, SEEN = 1 << 20, TELL = 9 };

/* The number in a variable of the environment; 0 where it isn't there. */
static long told(const char *name)
{
    const char *text = getenv(name);
    return text ? atol(text) : 0;
}

static long allocations, reads, writes;

/* ---- a script in memory, and what is written */
static enum { PLAIN, WATCHED, ONE_REFUSED, ALL_REFUSED } state;
static const char *script;
static size_t script_length, script_read;
static char written[ROOM];
static size_t written_length;

/* What a copy of the process leaves for the one that made it. */
static struct {
    size_t length;
    char bytes[ROOM];
} *left;

static unsigned long seen[SEEN];
static long runs;

static void say(const char *bytes, size_t length)
{
    while (length) {
        ssize_t moved = syscall(SYS_write, TELL, bytes, length);
        if (moved <= 0)
            _exit(99);
        bytes += moved;
        length -= moved;
    }
}

/* Whether an outcome is met for the first time, by a hash of its bytes and its status. */
static int is_new(int status)
{
    unsigned long hash = 14695981039346656037UL ^ (unsigned long)status;
    for (size_t k = 0; k < left->length; k++)
        hash = (hash ^ (unsigned char)left->bytes[k]) * 1099511628211UL;
    size_t at = hash % SEEN;
    while (seen[at] && seen[at] != hash)
        at = (at + 1) % SEEN;
    if (seen[at])
        return 0;
    seen[at] = hash;
    return 1;
}

/* Makes a copy of the process, in which this answers 1; the other waits until the copy has ended, and tells how. */
static int split(int refused, const char *kind)
{
    left->length = 0;
    pid_t copy = fork();
    if (copy < 0)
        _exit(98);
    if (!copy) {
        state = refused;
        return 1;
    }
    int status = 0;
    while (waitpid(copy, &status, 0) < 0 && errno == EINTR)
        ;
    runs++;
    if (is_new(status)) {
        char head[100];
        int code = WIFEXITED(status) ? WEXITSTATUS(status) : -WTERMSIG(status);
        say(head, snprintf(head, sizeof head, "%s %ld %d %zu\n", kind, allocations, code, left->length));
        say(left->bytes, left->length);
    }
    return 0;
}

static int is_refused(void)
{
    allocations++;
    if (state == WATCHED)
        return split(ONE_REFUSED, "one") || split(ALL_REFUSED, "all");
    return state == ALL_REFUSED;
}

void *malloc(size_t size)
{
    return is_refused() ? NULL : __libc_malloc(size);
}

void *realloc(void *block, size_t size)
{
    return is_refused() ? NULL : __libc_realloc(block, size);
}

ssize_t read(int file, void *bytes, size_t count)
{
    if (++reads == told("FAIL_READ")) {
        errno = EIO;
        return -1;
    }
    if (told("INTERRUPTED_READS") && reads % 3) {
        errno = EINTR;
        return -1;
    }
    if (state != PLAIN && file == 0) {
        if (count > script_length - script_read)
            count = script_length - script_read;
        memcpy(bytes, script + script_read, count);
        script_read += count;
        return count;
    }
    return syscall(SYS_read, file, bytes, told("SHORT_READS") && count ? 1 : count);
}

ssize_t write(int file, const void *bytes, size_t count)
{
    if (++writes == told("FAIL_WRITE")) {
        errno = EIO;
        return -1;
    }
    if (told("INTERRUPTED_WRITES") && writes % 3) {
        errno = EINTR;
        return -1;
    }
    if (state != PLAIN && file == 1) {
        if (count > ROOM - written_length)
            _exit(97);
        memcpy(written + written_length, bytes, count);
        written_length += count;
        return count;
    }
    return syscall(SYS_write, file, bytes, told("SHORT_WRITES") && count ? 1 : count);
}

ssize_t __write(int file, const void *bytes, size_t count)
{
    return write(file, bytes, count);
}

__attribute__((constructor)) static void begin(void)
{
    const char *path = getenv("EACH_ALLOCATION");
    if (!path)
        return;
    struct stat about;
    int file = open(path, O_RDONLY);
    if (file < 0 || fstat(file, &about))
        _exit(96);
    script_length = about.st_size;
    script = script_length ? mmap(NULL, script_length, PROT_READ, MAP_PRIVATE, file, 0) : "";
    left = mmap(NULL, sizeof *left, PROT_READ | PROT_WRITE, MAP_SHARED | MAP_ANONYMOUS, -1, 0);
    if (script == MAP_FAILED || left == MAP_FAILED)
        _exit(95);
    allocations = reads = writes = 0;
    state = WATCHED;
}

__attribute__((destructor)) static void end(void)
{
    char line[100];
    if (state == ONE_REFUSED || state == ALL_REFUSED) {
        memcpy(left->bytes, written, written_length);
        left->length = written_length;
    } else if (state == WATCHED) {
        long count = allocations;
        state = PLAIN;
        say(line, snprintf(line, sizeof line, "plain 0 0 %zu\n", written_length));
        say(written, written_length);
        say(line, snprintf(line, sizeof line, "runs %ld %ld 0\n", runs, count));
    } else if (getenv("TELL_CALLS")) {
        long a = allocations, r = reads, w = writes;
        say(line, snprintf(line, sizeof line, "%ld %ld %ld\n", a, r, w));
    }
}
