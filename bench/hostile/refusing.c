/* Refuses allocations of the program into which it is loaded: the one of the number in REFUSED_FIRST, and those behind it up
 * to the number in REFUSED_LAST. Nothing is refused where the first is 0. The file that REFUSED_COUNT names has the number of
 * all allocations and that of the refused ones, each in eight bytes. */
#include <errno.h>
#include <fcntl.h>
#include <stdatomic.h>
#include <stddef.h>
#include <stdlib.h>
#include <sys/mman.h>
#include <unistd.h>

extern void *__libc_malloc(size_t);
extern void *__libc_calloc(size_t, size_t);
extern void *__libc_realloc(void *, size_t);
extern void *__libc_memalign(size_t, size_t);

static _Atomic unsigned long *counts;
static unsigned long first, last;

__attribute__((constructor)) static void begin(void) {
    int file = open(getenv("REFUSED_COUNT"), O_RDWR);
    void *room = mmap(NULL, 16, PROT_READ | PROT_WRITE, MAP_SHARED, file, 0);
    if (file < 0 || room == MAP_FAILED)
        _exit(125);
    close(file);
    first = strtoul(getenv("REFUSED_FIRST"), NULL, 10);
    last = strtoul(getenv("REFUSED_LAST"), NULL, 10);
    counts = room;
}

/* Whether the next allocation is refused. */
static int is_refused(void) {
    if (!counts)
        return 0;
    unsigned long number = atomic_fetch_add(&counts[0], 1) + 1;
    if (first == 0 || number < first || number > last)
        return 0;
    atomic_fetch_add(&counts[1], 1);
    errno = ENOMEM;
    return 1;
}

void *malloc(size_t size) { return is_refused() ? NULL : __libc_malloc(size); }

void *calloc(size_t count, size_t size) { return is_refused() ? NULL : __libc_calloc(count, size); }

void *realloc(void *block, size_t size) { return is_refused() ? NULL : __libc_realloc(block, size); }

void *memalign(size_t align, size_t size) { return is_refused() ? NULL : __libc_memalign(align, size); }

void *aligned_alloc(size_t align, size_t size) { return memalign(align, size); }

int posix_memalign(void **block, size_t align, size_t size) {
    *block = memalign(align, size);
    return *block ? 0 : ENOMEM;
}
