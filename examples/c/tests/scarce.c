/* Requests of the library for memory, one of which is refused now and then (ld --wrap). */
#include "scarce.h"
#include "chance.h"
#include <stdlib.h>

void *__real_malloc(size_t len);
void *__real_realloc(void *block, size_t len);
void *__wrap_malloc(size_t len);
void *__wrap_realloc(void *block, size_t len);

/* The next ones up to the one that is refused; 0 if none is. */
static unsigned left;
static bool was_refused;

void scarce_begin(void) {
    left = below(3) ? 0 : 1 + (unsigned)below(3);
    was_refused = false;
}

bool scarce_end(void) {
    left = 0;
    return was_refused;
}

static bool is_refused(void) {
    if (left == 0 || --left > 0) return false;
    was_refused = true;
    return true;
}

void *__wrap_malloc(size_t len) {
    return is_refused() ? NULL : __real_malloc(len);
}

void *__wrap_realloc(void *block, size_t len) {
    return is_refused() ? NULL : __real_realloc(block, len);
}
