/* A library to preload: one call of the program fails, counted from 1, and all others do what they
 * did. What the environment says:
 *
 *     FAIL_ALLOCATION=N   the Nth malloc, calloc or realloc answers no memory
 *     FAIL_READ=N         the Nth read of standard input fails
 *     FAIL_WRITE=N        the Nth write to standard output fails
 *     PIECE=N             a read and a write move at most N bytes
 *     COUNTS=PATH         the numbers of calls of the three are written there at the end
 */
#define _GNU_SOURCE
#include <errno.h>
#include <fcntl.h>
#include <stdio.h>
#include <stdlib.h>
#include <sys/syscall.h>
#include <unistd.h>

extern void *__libc_malloc(size_t size);
extern void *__libc_calloc(size_t count, size_t size);
extern void *__libc_realloc(void *old, size_t size);

struct call {
    const char *name;
    unsigned long failing, made;
};

static struct call allocations = {"FAIL_ALLOCATION", 0, 0};
static struct call reads = {"FAIL_READ", 0, 0};
static struct call writes = {"FAIL_WRITE", 0, 0};
static size_t piece = 0;
static int is_ready = 0;

static unsigned long number_in(const char *name)
{
    const char *text = getenv(name);
    return text ? strtoul(text, NULL, 10) : 0;
}

/* Calls before this one, which are the loader's, are not counted. */
__attribute__((constructor)) static void begin(void)
{
    allocations.failing = number_in(allocations.name);
    reads.failing = number_in(reads.name);
    writes.failing = number_in(writes.name);
    piece = number_in("PIECE");
    is_ready = 1;
}

__attribute__((destructor)) static void end(void)
{
    const char *path = getenv("COUNTS");
    is_ready = 0;
    if (path) {
        char line[100];
        int length = snprintf(line, sizeof line, "%lu %lu %lu\n",
                              allocations.made, reads.made, writes.made);
        int file = open(path, O_WRONLY | O_CREAT | O_TRUNC, 0600);
        if (file < 0 || syscall(SYS_write, file, line, length) != length)
            _exit(99);
        close(file);
    }
}

/* Counts a call, and says whether it is the one that fails. */
static int fails(struct call *call, int error)
{
    if (!is_ready || ++call->made != call->failing)
        return 0;
    errno = error;
    return 1;
}

void *malloc(size_t size)
{
    return fails(&allocations, ENOMEM) ? NULL : __libc_malloc(size);
}

void *calloc(size_t count, size_t size)
{
    return fails(&allocations, ENOMEM) ? NULL : __libc_calloc(count, size);
}

void *realloc(void *old, size_t size)
{
    return fails(&allocations, ENOMEM) ? NULL : __libc_realloc(old, size);
}

static size_t at_most(size_t length)
{
    return piece && length > piece ? piece : length;
}

ssize_t read(int file, void *into, size_t length)
{
    if (file == 0 && fails(&reads, EIO))
        return -1;
    return syscall(SYS_read, file, into, at_most(length));
}

ssize_t write(int file, const void *from, size_t length)
{
    if (file == 1 && fails(&writes, EIO))
        return -1;
    return syscall(SYS_write, file, from, at_most(length));
}
