/* Refuses allocations of the program that it is preloaded into: by REFUSE=alone:K the K-th of them, by REFUSE=from:K that and all
   behind it. They are counted from 1, from the first one that the program makes itself. For each one that is refused a byte goes
   to descriptor 9. A program that isn't done after 20 seconds is ended by SIGALRM. */

#include <errno.h>
#include <stdlib.h>
#include <string.h>
#include <unistd.h>

extern void *__libc_malloc(size_t size);
extern void *__libc_calloc(size_t count, size_t size);
extern void *__libc_realloc(void *block, size_t size);
extern void *__libc_memalign(size_t alignment, size_t size);

static unsigned long asked;
static unsigned long first;
static int later_ones_too;

/* It runs ahead of the program's own code, so the loader's allocations and those of the C library's start aren't counted. */
__attribute__((constructor)) static void begin(void) {
    const char *words = getenv("REFUSE");
    const char *number = words ? strchr(words, ':') : NULL;
    if (number) {
        asked = 0;
        first = strtoul(number + 1, NULL, 10);
        later_ones_too = words[0] == 'f';
    }
    alarm(20);
}

static int is_refused(void) {
    asked++;
    if (first == 0 || asked < first || (asked > first && !later_ones_too))
        return 0;
    if (write(9, "x", 1) != 1)
        abort();
    errno = ENOMEM;
    return 1;
}

void *malloc(size_t size) {
    return is_refused() ? NULL : __libc_malloc(size);
}

void *calloc(size_t count, size_t size) {
    return is_refused() ? NULL : __libc_calloc(count, size);
}

void *realloc(void *block, size_t size) {
    return is_refused() ? NULL : __libc_realloc(block, size);
}

void *memalign(size_t alignment, size_t size) {
    return is_refused() ? NULL : __libc_memalign(alignment, size);
}

void *aligned_alloc(size_t alignment, size_t size) {
    return memalign(alignment, size);
}

int posix_memalign(void **block, size_t alignment, size_t size) {
    void *made = memalign(alignment, size);
    if (made == NULL)
        return ENOMEM;
    *block = made;
    return 0;
}
