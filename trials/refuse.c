// Refuses one request for memory. LD_PRELOAD it: the request with the number REFUSE, from 1, gets none; with no number
// all are granted. How many there were is written over the file that REFUSE_COUNT names, as each is made.
#define _GNU_SOURCE
#include <errno.h>
#include <fcntl.h>
#include <stdio.h>
#include <stdlib.h>
#include <string.h>
#include <unistd.h>

extern void *__libc_malloc(size_t);
extern void *__libc_calloc(size_t, size_t);
extern void *__libc_realloc(void *, size_t);
extern void *__libc_memalign(size_t, size_t);

static unsigned long asked, refused;
static int count = -1;

__attribute__((constructor)) static void begin(void) {
    char *number = getenv("REFUSE"), *file = getenv("REFUSE_COUNT");
    refused = number ? strtoul(number, 0, 10) : 0;
    if (file) count = open(file, O_WRONLY | O_CREAT | O_TRUNC, 0600);
    asked = 0;
}

static int is_refused(void) {
    unsigned long number = __atomic_add_fetch(&asked, 1, __ATOMIC_SEQ_CST);
    if (count >= 0) {
        char text[32];
        int length = snprintf(text, sizeof text, "%020lu", number);
        if (pwrite(count, text, (size_t)length, 0) < 0) return 1;
    }
    if (number != refused) return 0;
    errno = ENOMEM;
    return 1;
}

void *malloc(size_t n) { return is_refused() ? 0 : __libc_malloc(n); }
void *calloc(size_t m, size_t n) { return is_refused() ? 0 : __libc_calloc(m, n); }
void *realloc(void *p, size_t n) { return is_refused() ? 0 : __libc_realloc(p, n); }
void *aligned_alloc(size_t a, size_t n) { return is_refused() ? 0 : __libc_memalign(a, n); }
int posix_memalign(void **p, size_t a, size_t n) {
    if (is_refused()) return ENOMEM;
    *p = __libc_memalign(a, n);
    return *p ? 0 : ENOMEM;
}
