/* The library's memory: counts allocations, and makes one fail. To be linked with --wrap for malloc, realloc and free. */
#ifndef MEMORY_H
#define MEMORY_H

#include <stdbool.h>
#include <stddef.h>

static long blocks, takes, refused_take; /* on the heap; allocations since it was set to 0, and the one that fails, or 0 */

void *__real_malloc(size_t size);
void *__real_realloc(void *old, size_t size);
void __real_free(void *old);
void *__wrap_malloc(size_t size);
void *__wrap_realloc(void *old, size_t size);
void __wrap_free(void *old);

static bool is_refused(void) { return ++takes == refused_take; }

void *__wrap_malloc(size_t size) {
    void *made = is_refused() ? NULL : __real_malloc(size);
    blocks += made != NULL;
    return made;
}

void *__wrap_realloc(void *old, size_t size) {
    void *made = is_refused() ? NULL : __real_realloc(old, size);
    blocks += made != NULL && old == NULL;
    return made;
}

void __wrap_free(void *old) {
    blocks -= old != NULL;
    __real_free(old);
}

#endif
