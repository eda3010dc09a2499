/* Loaded ahead of a program (LD_PRELOAD), it refuses one of the program's requests for memory: the one whose number, counted from 1,
 * stands in FAIL_AT of the environment. 0 refuses none. The file that FAIL_TOLD names holds the count of requests, as a long. */
#define _GNU_SOURCE
#include <dlfcn.h>
#include <errno.h>
#include <fcntl.h>
#include <stdatomic.h>
#include <stdlib.h>
#include <sys/mman.h>
#include <unistd.h>

static atomic_long unshared;
static atomic_long *requests = &unshared;
static long refused_one = -1;
static void *(*next_malloc)(size_t);
static void *(*next_realloc)(void *, size_t);
static void *(*next_calloc)(size_t, size_t);
static int (*next_posix_memalign)(void **, size_t, size_t);
static void *(*next_aligned_alloc)(size_t, size_t);
/* What the loader itself asks for while `calloc` is looked up. */
static char early[65536];
static size_t early_used;

static void share_count(const char *file) {
    int descriptor = open(file, O_RDWR | O_CREAT, 0600);
    if (descriptor < 0 || ftruncate(descriptor, sizeof unshared)) return;
    void *shared = mmap(NULL, sizeof unshared, PROT_READ | PROT_WRITE, MAP_SHARED, descriptor, 0);
    close(descriptor);
    if (shared != MAP_FAILED) requests = shared;
}

static void begin(void) {
    const char *number = getenv("FAIL_AT"), *file = getenv("FAIL_TOLD");
    refused_one = number ? atol(number) : 0;
    next_malloc = dlsym(RTLD_NEXT, "malloc");
    next_realloc = dlsym(RTLD_NEXT, "realloc");
    next_posix_memalign = dlsym(RTLD_NEXT, "posix_memalign");
    next_aligned_alloc = dlsym(RTLD_NEXT, "aligned_alloc");
    next_calloc = dlsym(RTLD_NEXT, "calloc");
    if (file) share_count(file);
}

static int is_refused(void) {
    if (refused_one < 0) begin();
    if (atomic_fetch_add(requests, 1) + 1 != refused_one) return 0;
    errno = ENOMEM;
    return 1;
}

void *malloc(size_t size) { return is_refused() ? NULL : next_malloc(size); }

void *realloc(void *old, size_t size) { return is_refused() ? NULL : next_realloc(old, size); }

void *calloc(size_t count, size_t size) {
    if (!next_calloc) {
        void *given = early + early_used;
        early_used += (count * size + 15) / 16 * 16;
        return early_used <= sizeof early ? given : NULL;
    }
    return is_refused() ? NULL : next_calloc(count, size);
}

int posix_memalign(void **given, size_t alignment, size_t size) {
    return is_refused() ? ENOMEM : next_posix_memalign(given, alignment, size);
}

void *aligned_alloc(size_t alignment, size_t size) {
    return is_refused() ? NULL : next_aligned_alloc(alignment, size);
}
