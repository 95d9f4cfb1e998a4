/* Put before the program by the loader: it refuses some calls of one kind, and writes down all of them.

   HOSTILE is `KIND FIRST LAST HOW`: of the calls of the kind alloc, open, read or write those from FIRST to LAST are refused. HOW is
   the error that they end with; 0 is that at most one byte is moved, and -N that the file is made N bytes longer before the call.
   HOSTILE_LOG names a file that takes a line for each call: its kind, and the file that it is of. */
#define _GNU_SOURCE
#include <errno.h>
#include <fcntl.h>
#include <stdarg.h>
#include <stdio.h>
#include <stdlib.h>
#include <string.h>
#include <sys/syscall.h>
#include <unistd.h>

enum { ALLOC, OPEN, READ, WRITE, KINDS };
static const char *const names[KINDS] = {"alloc", "open", "read", "write"};
enum { FILES = 64, NAME = 256 };

extern void *__libc_malloc(size_t size);
extern void *__libc_calloc(size_t count, size_t size);
extern void *__libc_realloc(void *old, size_t size);

static int kind = KINDS, how, is_armed, log_file = -1;
static long first, last, count[KINDS];
static char opened[FILES][NAME];

__attribute__((constructor)) static void arm(void) {
    const char *asked = getenv("HOSTILE"), *log_name = getenv("HOSTILE_LOG");
    char word[8];
    if (asked && sscanf(asked, "%7s %ld %ld %d", word, &first, &last, &how) == 4)
        for (kind = 0; kind < KINDS && strcmp(word, names[kind]); kind++) {}
    if (log_name) log_file = open(log_name, O_WRONLY | O_CREAT | O_TRUNC | O_CLOEXEC, 0600);
    strcpy(opened[0], "-");
    memset(count, 0, sizeof count);
    is_armed = 1;
}

/* Whether this call is one of those that are asked for. */
static int is_asked(int of, const char *file) {
    if (!is_armed) return 0;
    if (log_file >= 0) {
        char line[NAME + 16];
        int length = snprintf(line, sizeof line, "%s %.*s\n", names[of], NAME - 1, file);
        syscall(SYS_write, log_file, line, length);
    }
    count[of]++;
    return of == kind && count[of] >= first && count[of] <= last;
}

static void *no_memory(void) {
    errno = ENOMEM;
    return NULL;
}

void *malloc(size_t size) { return is_asked(ALLOC, "") ? no_memory() : __libc_malloc(size); }
void *calloc(size_t n, size_t size) { return is_asked(ALLOC, "") ? no_memory() : __libc_calloc(n, size); }
void *realloc(void *old, size_t size) { return is_asked(ALLOC, "") ? no_memory() : __libc_realloc(old, size); }

int open(const char *name, int flags, ...) {
    va_list rest;
    va_start(rest, flags);
    int mode = flags & O_CREAT ? va_arg(rest, int) : 0;
    va_end(rest);
    if (is_asked(OPEN, name)) {
        errno = how;
        return -1;
    }
    int file = syscall(SYS_openat, AT_FDCWD, name, flags, mode);
    if (file >= 0 && file < FILES) snprintf(opened[file], NAME, "%s", name);
    return file;
}

static const char *name_of(int file) { return file >= 0 && file < FILES ? opened[file] : ""; }

/* Makes the file -how bytes longer, by blanks. */
static void grow(int file) {
    static char blanks[65536];
    int to = syscall(SYS_openat, AT_FDCWD, name_of(file), O_WRONLY | O_APPEND, 0);
    memset(blanks, '\n', sizeof blanks);
    for (long left = -how; to >= 0 && left > 0; left -= sizeof blanks)
        syscall(SYS_write, to, blanks, left < (long)sizeof blanks ? left : (long)sizeof blanks);
    syscall(SYS_close, to);
}

ssize_t read(int file, void *into, size_t size) {
    if (is_asked(READ, name_of(file))) {
        if (how > 0) return errno = how, -1;
        if (how < 0) grow(file);
        if (how == 0 && size > 1) size = 1;
    }
    return syscall(SYS_read, file, into, size);
}

ssize_t write(int file, const void *from, size_t size) {
    if (is_asked(WRITE, "")) {
        if (how > 0) return errno = how, -1;
        if (size > 1) size = 1;
    }
    return syscall(SYS_write, file, from, size);
}
