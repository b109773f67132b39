// An input or an output that has trouble: stands before the C library's read and write. Preloaded by tests.
//
//   TROUBLE_MOST=N      a read of the standard input returns at most N bytes, a write to the standard output takes as many
//   TROUBLE_READ=N      the read after N others has trouble
//   TROUBLE_WRITE=N     the write after N others has trouble
//   TROUBLE_ERRNO=E     what the trouble is: this error, or with 0 a return of no bytes
//   TROUBLE_CALLS=FILE  each call appends a byte to the file: `r`, `w`, or `!` for the one that has trouble
#define _GNU_SOURCE
#include <dlfcn.h>
#include <errno.h>
#include <fcntl.h>
#include <stdlib.h>
#include <unistd.h>

static long number_of(const char *name) {
    const char *text = getenv(name);
    return text ? atol(text) : -1;
}

// Notes a call in the file of calls.
static void note(char call) {
    static ssize_t (*write_all)(int, const void *, size_t);
    static int file = -1;
    const char *path = getenv("TROUBLE_CALLS");
    if (path && file < 0) {
        write_all = (ssize_t (*)(int, const void *, size_t))dlsym(RTLD_NEXT, "write");
        file = open(path, O_WRONLY | O_CREAT | O_APPEND, 0600);
    }
    if (file >= 0 && write_all(file, &call, 1) != 1)
        abort();
}

// Whether this call has trouble, which it counts and notes.
static int has_trouble(const char *name, long *calls, char call) {
    int is_troubled = (*calls)++ == number_of(name);
    note(is_troubled ? '!' : call);
    return is_troubled;
}

static ssize_t trouble(void) {
    long error = number_of("TROUBLE_ERRNO");
    errno = (int)error;
    return error ? -1 : 0;
}

static size_t at_most(size_t length) {
    long most = number_of("TROUBLE_MOST");
    return most >= 0 && length > (size_t)most ? (size_t)most : length;
}

ssize_t read(int file, void *bytes, size_t length) {
    static ssize_t (*next)(int, void *, size_t);
    static long calls;
    if (!next)
        next = (ssize_t (*)(int, void *, size_t))dlsym(RTLD_NEXT, "read");
    if (file != STDIN_FILENO)
        return next(file, bytes, length);
    return has_trouble("TROUBLE_READ", &calls, 'r') ? trouble() : next(file, bytes, at_most(length));
}

ssize_t write(int file, const void *bytes, size_t length) {
    static ssize_t (*next)(int, const void *, size_t);
    static long calls;
    if (!next)
        next = (ssize_t (*)(int, const void *, size_t))dlsym(RTLD_NEXT, "write");
    if (file != STDOUT_FILENO)
        return next(file, bytes, length);
    return has_trouble("TROUBLE_WRITE", &calls, 'w') ? trouble() : next(file, bytes, at_most(length));
}
