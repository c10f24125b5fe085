/* Loaded before the C library, it refuses requests for memory: the one of the number REFUSE_AT, counted from 1, and with REFUSE_ON=1 all later ones too.
   At the end it writes how many requests there were to the file that REFUSE_COUNT names. tools/sweep makes and uses it. */
#define _GNU_SOURCE
#include <errno.h>
#include <fcntl.h>
#include <stdio.h>
#include <stdlib.h>
#include <unistd.h>

extern void *__libc_malloc(size_t);
extern void *__libc_calloc(size_t, size_t);
extern void *__libc_realloc(void *, size_t);
extern void *__libc_memalign(size_t, size_t);

static unsigned long refuse_at, requests;
static int refuse_on, is_ready;

static int is_refused(void) {
    unsigned long now = __atomic_add_fetch(&requests, 1, __ATOMIC_SEQ_CST);
    if (!is_ready || refuse_at == 0) return 0;
    if (now == refuse_at || (refuse_on && now > refuse_at)) {
        errno = ENOMEM;
        return 1;
    }
    return 0;
}

__attribute__((constructor)) static void begin(void) {
    const char *at = getenv("REFUSE_AT"), *on = getenv("REFUSE_ON");
    refuse_at = at ? strtoul(at, NULL, 10) : 0;
    refuse_on = on && *on == '1';
    requests = 0;
    is_ready = 1;
}

__attribute__((destructor)) static void end(void) {
    const char *file = getenv("REFUSE_COUNT");
    char text[32];
    int length = snprintf(text, sizeof text, "%lu\n", requests);
    int to = file ? open(file, O_WRONLY | O_CREAT | O_TRUNC, 0644) : -1;
    if (to >= 0) {
        if (write(to, text, length) < 0) {}
        close(to);
    }
}

void *malloc(size_t size) { return is_refused() ? NULL : __libc_malloc(size); }
void *calloc(size_t count, size_t size) { return is_refused() ? NULL : __libc_calloc(count, size); }
void *realloc(void *block, size_t size) { return is_refused() ? NULL : __libc_realloc(block, size); }
void *memalign(size_t align, size_t size) { return is_refused() ? NULL : __libc_memalign(align, size); }
void *aligned_alloc(size_t align, size_t size) { return is_refused() ? NULL : __libc_memalign(align, size); }
int posix_memalign(void **block, size_t align, size_t size) {
    if (is_refused()) return ENOMEM;
    *block = __libc_memalign(align, size);
    return *block ? 0 : ENOMEM;
}
