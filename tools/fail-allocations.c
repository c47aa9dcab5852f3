// Loaded before a program, this lets chosen requests for memory fail. They are counted from 1.
//   FAIL_FIRST=K     the K-th request fails
//   FAIL_LATER=yes   and each one behind it
//   COUNT_IN=FILE    how many there were goes to this file as the program ends
#include <errno.h>
#include <stdio.h>
#include <stdlib.h>

static unsigned long count, first;
static int later;

__attribute__((constructor)) static void begin(void) {
    const char *number = getenv("FAIL_FIRST");
    if (number) first = strtoul(number, NULL, 10);
    later = getenv("FAIL_LATER") != NULL;
}

__attribute__((destructor)) static void end(void) {
    const char *name = getenv("COUNT_IN");
    unsigned long asked = count;
    FILE *file = name ? fopen(name, "w") : NULL;
    if (file) {
        fprintf(file, "%lu\n", asked);
        fclose(file);
    }
}

static int fails(void) {
    count++;
    if (!first || (later ? count < first : count != first)) return 0;
    errno = ENOMEM;
    return 1;
}

void *__libc_malloc(size_t);
void *__libc_calloc(size_t, size_t);
void *__libc_realloc(void *, size_t);
void *__libc_memalign(size_t, size_t);

void *malloc(size_t size) { return fails() ? NULL : __libc_malloc(size); }
void *calloc(size_t many, size_t size) { return fails() ? NULL : __libc_calloc(many, size); }
void *realloc(void *at, size_t size) { return fails() ? NULL : __libc_realloc(at, size); }
void *aligned_alloc(size_t to, size_t size) { return fails() ? NULL : __libc_memalign(to, size); }
int posix_memalign(void **at, size_t to, size_t size) {
    void *found = aligned_alloc(to, size);
    if (!found) return ENOMEM;
    *at = found;
    return 0;
}
