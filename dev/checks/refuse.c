/* Refuses growths of memory, or threads, to the program that it is preloaded to: dev/do refuse builds it and sets what follows. NOT PROVED.
 * It trusts the linker to put it before the C library (glibc), whose allocator it calls by that library's own names.
 *
 *     REFUSE_GROWTHS="5 5"      the growths from the 5th to the 5th find no memory, counted from 1 over all threads
 *     REFUSE_THREADS="1 0"      from the 1st on no thread is started (a second number of 0: all from the first on)
 *     REFUSE_COUNTS=FILE        a file of four numbers of 64 bits: how many growths were asked for and refused, and how many threads
 *
 * A growth is a call of malloc, calloc, realloc and the like that asks for at least a byte, also by the C library itself for a thread.
 */
#define _GNU_SOURCE
#include <dlfcn.h>
#include <errno.h>
#include <fcntl.h>
#include <pthread.h>
#include <stdatomic.h>
#include <stdint.h>
#include <stdio.h>
#include <stdlib.h>
#include <sys/mman.h>
#include <unistd.h>

void *__libc_malloc(size_t size);
void *__libc_calloc(size_t count, size_t size);
void *__libc_realloc(void *old, size_t size);
void *__libc_memalign(size_t alignment, size_t size);

struct counts {
    _Atomic uint64_t asked, refused;
};

/* From the first to the last of them are refused, none where the first is 0. */
struct range {
    uint64_t first, last;
};

static struct counts unseen[2], *growths = &unseen[0], *threads = &unseen[1];
static struct range of_growths, of_threads;
static int begun;

static struct range range_in(const char *name) {
    unsigned long first = 0, last = 0;
    const char *text = getenv(name);
    if (text != NULL && sscanf(text, "%lu %lu", &first, &last) != 2) first = 0;
    return (struct range){first, last == 0 ? UINT64_MAX : last};
}

/* Runs before main: what the linker asked for until then isn't counted. */
__attribute__((constructor)) static void begin(void) {
    const char *path = getenv("REFUSE_COUNTS");
    int file = path == NULL ? -1 : open(path, O_RDWR | O_CLOEXEC);
    if (file >= 0) {
        void *shared = mmap(NULL, 2 * sizeof(struct counts), PROT_READ | PROT_WRITE, MAP_SHARED, file, 0);
        if (shared != MAP_FAILED) {
            growths = shared;
            threads = growths + 1;
        }
        close(file);
    }
    of_growths = range_in("REFUSE_GROWTHS");
    of_threads = range_in("REFUSE_THREADS");
    begun = 1;
}

static int is_refused(struct counts *counts, struct range range) {
    uint64_t number = atomic_fetch_add(&counts->asked, 1) + 1;
    if (range.first == 0 || number < range.first || range.last < number) return 0;
    atomic_fetch_add(&counts->refused, 1);
    return 1;
}

/* Whether this growth is refused; errno tells it then. */
static int no_memory(size_t size) {
    if (!begun || size == 0 || !is_refused(growths, of_growths)) return 0;
    errno = ENOMEM;
    return 1;
}

void *malloc(size_t size) { return no_memory(size) ? NULL : __libc_malloc(size); }

void *calloc(size_t count, size_t size) {
    return count != 0 && no_memory(size) ? NULL : __libc_calloc(count, size);
}

void *realloc(void *old, size_t size) { return no_memory(size) ? NULL : __libc_realloc(old, size); }

void *reallocarray(void *old, size_t count, size_t size) {
    size_t bytes;
    if (__builtin_mul_overflow(count, size, &bytes)) {
        errno = ENOMEM;
        return NULL;
    }
    return realloc(old, bytes);
}

void *memalign(size_t alignment, size_t size) { return no_memory(size) ? NULL : __libc_memalign(alignment, size); }

void *aligned_alloc(size_t alignment, size_t size) { return memalign(alignment, size); }

int posix_memalign(void **block, size_t alignment, size_t size) {
    if (alignment % sizeof(void *) != 0 || (alignment & (alignment - 1)) != 0 || alignment == 0) return EINVAL;
    int before = errno;
    void *made = memalign(alignment, size);
    errno = before;
    if (made == NULL && size != 0) return ENOMEM;
    *block = made;
    return 0;
}

int pthread_create(pthread_t *thread, const pthread_attr_t *attributes, void *(*start)(void *), void *argument) {
    static int (*_Atomic next)(pthread_t *, const pthread_attr_t *, void *(*)(void *), void *);
    if (is_refused(threads, of_threads)) return EAGAIN;
    if (next == NULL) next = (int (*)(pthread_t *, const pthread_attr_t *, void *(*)(void *), void *))dlsym(RTLD_NEXT, "pthread_create");
    return next(thread, attributes, start, argument);
}
