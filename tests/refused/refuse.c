// Preloaded into a program, refuses or shortens one of its calls: REFUSE is allocation, read, write, open, sync, rename, short-read or
// short-write, and AT the number of the call among its kind, from 1. If CALLS is given, the file of this name gets the numbers of the
// allocations, reads, writes, opens, syncs and renames that were made.

#include <errno.h>
#include <fcntl.h>
#include <stdarg.h>
#include <stdio.h>
#include <stdlib.h>
#include <string.h>
#include <sys/syscall.h>
#include <unistd.h>

// The C library's own, by the names that it has for them besides.
void *__libc_malloc(size_t size);
void *__libc_calloc(size_t count, size_t size);
void *__libc_realloc(void *old, size_t size);

enum kind { ALLOCATION, READ, WRITE, OPEN, SYNC, RENAME, KINDS };
static const char *const names[KINDS] = {"allocation", "read", "write", "open", "sync", "rename"};

static unsigned long made[KINDS], at;
static enum kind chosen = KINDS;
static int shortens;

__attribute__((constructor)) static void choose(void) {
    const char *word = getenv("REFUSE"), *number = getenv("AT");
    if (!word || !number) return;
    at = strtoul(number, 0, 10);
    shortens = !strncmp(word, "short-", 6);
    for (int kind = 0; kind < KINDS; kind++)
        if (!strcmp(word + 6 * shortens, names[kind])) chosen = kind;
}

__attribute__((destructor)) static void tell(void) {
    const char *file = getenv("CALLS");
    if (!file) return;
    int out = syscall(SYS_openat, AT_FDCWD, file, O_WRONLY | O_CREAT | O_TRUNC, 0666);
    dprintf(out, "%lu %lu %lu %lu %lu %lu\n", made[ALLOCATION], made[READ], made[WRITE], made[OPEN], made[SYNC], made[RENAME]);
    close(out);
}

static int is_chosen(enum kind kind) {
    return ++made[kind] == at && kind == chosen;
}

static void *no_memory(void) {
    errno = ENOMEM;
    return 0;
}

void *malloc(size_t size) {
    return is_chosen(ALLOCATION) ? no_memory() : __libc_malloc(size);
}

void *calloc(size_t count, size_t size) {
    return is_chosen(ALLOCATION) ? no_memory() : __libc_calloc(count, size);
}

void *realloc(void *old, size_t size) {
    return is_chosen(ALLOCATION) ? no_memory() : __libc_realloc(old, size);
}

// Moves bytes by the system's call of this number; a shortened call moves one.
static ssize_t move(enum kind kind, long call, int file, const void *bytes, size_t count) {
    int is_it = is_chosen(kind);
    if (is_it && !shortens) {
        errno = EIO;
        return -1;
    }
    return syscall(call, file, bytes, is_it && count > 1 ? 1 : count);
}

ssize_t read(int file, void *bytes, size_t count) {
    return move(READ, SYS_read, file, bytes, count);
}

ssize_t write(int file, const void *bytes, size_t count) {
    return move(WRITE, SYS_write, file, bytes, count);
}

ssize_t __write(int file, const void *bytes, size_t count) {
    return write(file, bytes, count);
}

// Refuses a call, or makes it.
#define UNLESS_REFUSED(kind, call) (is_chosen(kind) ? (errno = EIO, -1) : (call))

int open(const char *path, int flags, ...) {
    va_list further;
    va_start(further, flags);
    mode_t mode = flags & O_CREAT ? va_arg(further, mode_t) : 0;
    va_end(further);
    return UNLESS_REFUSED(OPEN, syscall(SYS_openat, AT_FDCWD, path, flags, mode));
}

int open64(const char *path, int flags, ...) {
    va_list further;
    va_start(further, flags);
    mode_t mode = flags & O_CREAT ? va_arg(further, mode_t) : 0;
    va_end(further);
    return UNLESS_REFUSED(OPEN, syscall(SYS_openat, AT_FDCWD, path, flags, mode));
}

int fsync(int file) {
    return UNLESS_REFUSED(SYNC, syscall(SYS_fsync, file));
}

int rename(const char *from, const char *to) {
    return UNLESS_REFUSED(RENAME, syscall(SYS_renameat2, AT_FDCWD, from, AT_FDCWD, to, 0));
}
