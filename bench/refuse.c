// Refuses growths of memory: stands before the C library's calls that take memory. Preloaded by bench/growths.sh.
//
//   REFUSE_AT=N        the N-th growth is refused; the first is 1, and 0 refuses none
//   REFUSE_ON=1        each growth after that one is refused too
//   REFUSE_WINDOW=1    growths count only from a line `made` of the standard output to a line `done`, and from 1 again
//                      after the next `made`
//   REFUSE_REPORT=FILE the file has two numbers of eight bytes, right at each moment: the growths that counted, in the
//                      longest window, and how many were refused
#define _GNU_SOURCE
#include <dlfcn.h>
#include <errno.h>
#include <fcntl.h>
#include <stdatomic.h>
#include <stddef.h>
#include <stdlib.h>
#include <string.h>
#include <sys/mman.h>
#include <unistd.h>

struct report {
    atomic_long growths;
    atomic_long refused;
};

static struct report unread;
static struct report *report = &unread;
static long refuse_at;
static int refuses_on;
static int has_window;
static atomic_int counts;
static atomic_long growths;

static int is_begun;
static void *(*real_malloc)(size_t);
static void *(*real_calloc)(size_t, size_t);
static void *(*real_realloc)(void *, size_t);
static void *(*real_aligned_alloc)(size_t, size_t);
static int (*real_posix_memalign)(void **, size_t, size_t);
static void (*real_free)(void *);
static ssize_t (*real_write)(int, const void *, size_t);

// What is asked for while the real calls are looked up.
static char early[4096];
static size_t early_used;

static long number_in(const char *name) {
    const char *text = getenv(name);
    return text ? atol(text) : 0;
}

// Maps the file of the report.
static struct report *report_in(const char *path) {
    int file = open(path, O_RDWR | O_CREAT, 0644);
    if (file < 0 || ftruncate(file, sizeof(struct report))) _exit(70);
    void *place = mmap(NULL, sizeof(struct report), PROT_READ | PROT_WRITE, MAP_SHARED, file, 0);
    if (place == MAP_FAILED) _exit(70);
    close(file);
    return place;
}

static void begin(void) {
    is_begun = 1;
    real_calloc = dlsym(RTLD_NEXT, "calloc");
    real_realloc = dlsym(RTLD_NEXT, "realloc");
    real_aligned_alloc = dlsym(RTLD_NEXT, "aligned_alloc");
    real_posix_memalign = dlsym(RTLD_NEXT, "posix_memalign");
    real_free = dlsym(RTLD_NEXT, "free");
    real_write = dlsym(RTLD_NEXT, "write");
    real_malloc = dlsym(RTLD_NEXT, "malloc");
    refuse_at = number_in("REFUSE_AT");
    refuses_on = number_in("REFUSE_ON") != 0;
    has_window = number_in("REFUSE_WINDOW") != 0;
    const char *path = getenv("REFUSE_REPORT");
    if (path) report = report_in(path);
    counts = !has_window;
}

__attribute__((constructor)) static void start(void) {
    if (!is_begun) begin();
}

// Counts a growth, and returns whether it is refused.
static int refuses(void) {
    if (!counts) return 0;
    long number = atomic_fetch_add(&growths, 1) + 1;
    if (number > report->growths) report->growths = number;
    if (!refuse_at || (refuses_on ? number < refuse_at : number != refuse_at)) return 0;
    atomic_fetch_add(&report->refused, 1);
    errno = ENOMEM;
    return 1;
}

void *malloc(size_t size) {
    start();
    if (!real_malloc) {
        size_t at = (early_used + 15) & ~(size_t)15;
        if (at + size > sizeof early) return NULL;
        early_used = at + size;
        return early + at;
    }
    return refuses() ? NULL : real_malloc(size);
}

void *calloc(size_t count, size_t size) {
    start();
    // What comes early is zero, since none of it was used before.
    if (!real_malloc) return malloc(count * size);
    return refuses() ? NULL : real_calloc(count, size);
}

void *realloc(void *block, size_t size) {
    start();
    return refuses() ? NULL : real_realloc(block, size);
}

void *aligned_alloc(size_t align, size_t size) {
    start();
    return refuses() ? NULL : real_aligned_alloc(align, size);
}

int posix_memalign(void **block, size_t align, size_t size) {
    start();
    return refuses() ? ENOMEM : real_posix_memalign(block, align, size);
}

void free(void *block) {
    if ((char *)block >= early && (char *)block < early + sizeof early) return;
    start();
    real_free(block);
}

// Opens the window at a line `made`, and closes it at a line `done`.
ssize_t write(int file, const void *bytes, size_t count) {
    start();
    ssize_t written = real_write(file, bytes, count);
    if (has_window && file == STDOUT_FILENO && count == 5) {
        if (!memcmp(bytes, "made\n", 5)) {
            growths = 0;
            counts = 1;
        } else if (!memcmp(bytes, "done\n", 5)) {
            counts = 0;
        }
    }
    return written;
}
