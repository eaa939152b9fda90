/* malloc, realloc and free of a program that refuses one allocation of the library. Link it with
 * -Wl,--wrap=malloc,--wrap=realloc,--wrap=free. */
#ifndef REFUSING_H
#define REFUSING_H

#include "check.h"

void *__real_malloc(size_t size);
void *__real_realloc(void *at, size_t size);
void __real_free(void *at);
void *__wrap_malloc(size_t size);
void *__wrap_realloc(void *at, size_t size);
void __wrap_free(void *at);

static long until_refused = -1; /* how many allocations until one is refused; none if negative */
static long held = 0;           /* blocks that were not freed */
static bool watching = false;   /* whether a call of the library runs */

static bool is_refused(void) { return watching && until_refused >= 0 && until_refused-- == 0; }

void *__wrap_malloc(size_t size) {
    if (is_refused()) return NULL;
    void *at = __real_malloc(size);
    held += at != NULL;
    return at;
}

void *__wrap_realloc(void *at, size_t size) {
    if (is_refused()) return NULL;
    void *moved = __real_realloc(at, size);
    held += !at && moved;
    return moved;
}

void __wrap_free(void *at) {
    held -= at != NULL;
    __real_free(at);
}

#endif
