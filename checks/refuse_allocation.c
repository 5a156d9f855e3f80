// To be preloaded: refuses the allocation whose number, from 1, REFUSED has, and each later one too where REFUSED_ALL is
// set. What is refused is told by a byte on descriptor 9, where that is open. The counting begins where the program does.
#include <stddef.h>
#include <stdlib.h>
#include <unistd.h>

extern void *__libc_malloc(size_t), *__libc_calloc(size_t, size_t), *__libc_realloc(void *, size_t);

static long left = -1;
static int is_for_all;

__attribute__((constructor)) static void begin(void) {
    const char *number = getenv("REFUSED");
    is_for_all = getenv("REFUSED_ALL") != NULL;
    left = number ? atol(number) : -1;
}

static int is_refused(void) {
    if (left < 0) return 0;
    if (left > 0) left--;
    if (left > 0) return 0;
    if (!is_for_all) left = -1;
    ssize_t told = write(9, ".", 1);
    (void)told;
    return 1;
}

void *malloc(size_t size) { return is_refused() ? NULL : __libc_malloc(size); }
void *calloc(size_t count, size_t size) { return is_refused() ? NULL : __libc_calloc(count, size); }
void *realloc(void *old, size_t size) { return is_refused() ? NULL : __libc_realloc(old, size); }
