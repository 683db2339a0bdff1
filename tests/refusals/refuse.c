// Refuses allocations of the process that it is loaded into: that of the number REFUSE, counted from 1, and with REFUSE_ALL each one from
// there on. At the end it writes how many there were to the file descriptor 9, where that is open.
#include <errno.h>
#include <stddef.h>
#include <stdio.h>
#include <stdlib.h>

extern void *__libc_malloc(size_t size);
extern void *__libc_calloc(size_t count, size_t size);
extern void *__libc_realloc(void *old, size_t size);
extern void *__libc_memalign(size_t alignment, size_t size);

static unsigned long count, number;
static int all;

__attribute__((constructor)) static void start(void) {
    const char *said = getenv("REFUSE");
    number = said ? strtoul(said, NULL, 10) : 0;
    all = getenv("REFUSE_ALL") != NULL;
}

__attribute__((destructor)) static void end(void) { dprintf(9, "%lu\n", count); }

static int is_refused(void) {
    count++;
    if (number == 0 || count < number || (count > number && !all)) return 0;
    errno = ENOMEM;
    return 1;
}

void *malloc(size_t size) { return is_refused() ? NULL : __libc_malloc(size); }

void *calloc(size_t items, size_t size) { return is_refused() ? NULL : __libc_calloc(items, size); }

void *realloc(void *old, size_t size) { return is_refused() ? NULL : __libc_realloc(old, size); }

void *memalign(size_t alignment, size_t size) { return is_refused() ? NULL : __libc_memalign(alignment, size); }

void *aligned_alloc(size_t alignment, size_t size) { return memalign(alignment, size); }

int posix_memalign(void **place, size_t alignment, size_t size) {
    void *memory = memalign(alignment, size);
    if (memory == NULL) return ENOMEM;
    *place = memory;
    return 0;
}
