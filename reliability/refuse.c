/* A library for LD_PRELOAD that lets one call of the program fail, from its start on.

   REFUSE_WHAT   which calls are counted: memory, open, read or write
   REFUSE_AT     the number of the call that fails, from 1; 0 for none
   REFUSE_STAY   1: all later calls fail too
   REFUSE_SHORT  1: a write that doesn't fail takes one byte only
   REFUSE_REPORT a descriptor: one byte is written to it when a call fails

   A refused allocation answers NULL with ENOMEM, another failing call -1 with EIO. The calls that the C library makes for itself aren't seen. */
#define _GNU_SOURCE
#include <errno.h>
#include <fcntl.h>
#include <stdarg.h>
#include <stddef.h>
#include <stdlib.h>
#include <string.h>
#include <sys/syscall.h>
#include <unistd.h>

extern void *__libc_malloc(size_t);
extern void *__libc_calloc(size_t, size_t);
extern void *__libc_realloc(void *, size_t);
extern void *__libc_memalign(size_t, size_t);

enum what { NOTHING, MEMORY, OPEN, READ, WRITE };

static enum what counted = NOTHING;
static unsigned long failing, seen;
static int stays, shortened, report = -1;

static unsigned long number(const char *name, unsigned long otherwise)
{
    const char *text = getenv(name);
    return text ? strtoul(text, NULL, 10) : otherwise;
}

__attribute__((constructor)) static void begin(void)
{
    const char *name = getenv("REFUSE_WHAT");
    failing = number("REFUSE_AT", 0);
    stays = number("REFUSE_STAY", 0) != 0;
    shortened = number("REFUSE_SHORT", 0) != 0;
    report = (int)number("REFUSE_REPORT", (unsigned long)-1);
    if (name && !strcmp(name, "memory")) counted = MEMORY;
    if (name && !strcmp(name, "open")) counted = OPEN;
    if (name && !strcmp(name, "read")) counted = READ;
    if (name && !strcmp(name, "write")) counted = WRITE;
}

static int fails(enum what what)
{
    if (counted != what) return 0;
    seen++;
    if (failing == 0 || !(seen == failing || (stays && seen > failing))) return 0;
    if (report >= 0 && seen == failing) syscall(SYS_write, report, "!", 1);
    errno = what == MEMORY ? ENOMEM : EIO;
    return 1;
}

void *malloc(size_t size) { return fails(MEMORY) ? NULL : __libc_malloc(size); }

void *calloc(size_t count, size_t size) { return fails(MEMORY) ? NULL : __libc_calloc(count, size); }

void *realloc(void *old, size_t size) { return fails(MEMORY) ? NULL : __libc_realloc(old, size); }

int posix_memalign(void **place, size_t alignment, size_t size)
{
    if (fails(MEMORY)) return ENOMEM;
    *place = __libc_memalign(alignment, size);
    return *place ? 0 : ENOMEM;
}

void *aligned_alloc(size_t alignment, size_t size) { return fails(MEMORY) ? NULL : __libc_memalign(alignment, size); }

int open(const char *path, int flags, ...)
{
    mode_t mode = 0;
    if (flags & O_CREAT) {
        va_list rest;
        va_start(rest, flags);
        mode = va_arg(rest, mode_t);
        va_end(rest);
    }
    return fails(OPEN) ? -1 : (int)syscall(SYS_openat, AT_FDCWD, path, flags, mode);
}

ssize_t read(int file, void *bytes, size_t count) { return fails(READ) ? -1 : syscall(SYS_read, file, bytes, count); }

static ssize_t put(int file, const void *bytes, size_t count)
{
    if (fails(WRITE)) return -1;
    return syscall(SYS_write, file, bytes, shortened && count > 1 ? 1 : count);
}

ssize_t write(int file, const void *bytes, size_t count) { return put(file, bytes, count); }

ssize_t __write(int file, const void *bytes, size_t count) { return put(file, bytes, count); }
