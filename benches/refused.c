// An allocator that refuses its Nth request, once: N is REFUSED_AT. How many there were is written to the file REFUSED_COUNT.
#include <fcntl.h>
#include <stdio.h>
#include <stdlib.h>
#include <unistd.h>

extern void *__libc_malloc(size_t size);
extern void *__libc_realloc(void *old, size_t size);

static unsigned long count, at;

static int is_refused(void) {
    return ++count == at;
}

__attribute__((constructor)) static void begin(void) {
    const char *number = getenv("REFUSED_AT");
    at = number ? strtoul(number, NULL, 10) : 0;
    count = 0;
}

__attribute__((destructor)) static void end(void) {
    const char *path = getenv("REFUSED_COUNT");
    int file = path ? open(path, O_WRONLY | O_CREAT | O_TRUNC, 0600) : -1;
    if (file >= 0) {
        dprintf(file, "%lu\n", count);
        close(file);
    }
}

void *malloc(size_t size) {
    return is_refused() ? NULL : __libc_malloc(size);
}

void *realloc(void *old, size_t size) {
    return is_refused() ? NULL : __libc_realloc(old, size);
}
