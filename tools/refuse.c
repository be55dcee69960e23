// Beneath a program (LD_PRELOAD): counts its requests for memory, and refuses the one of a number.
// REFUSED has that number to begin with, from 1 on; with COUNTED the end of the program tells on
// standard error how many it made. The program names another by a request of SAID bytes and as many
// more as the number, which is refused and begins the count anew; a request of NOTED bytes says
// that a call told of the refusal, and one of TELL bytes and as many more as a binary digit is
// refused if the count has that digit. Digits above the count: since the last number above 0 a
// request was refused, and a call told of it. Another request of SAID bytes or more fails, as it
// does on every machine, and doesn't count as refused.
#define _GNU_SOURCE
#include <dlfcn.h>
#include <stdio.h>
#include <stdlib.h>

#define SAID ((size_t)1 << 44)
#define NOTED (SAID | (size_t)1 << 42)
#define TELL (SAID | (size_t)1 << 43)
#define NUMBER 0xffff
#define COUNT 0xfff
#define IS_REFUSED 0x1000
#define IS_TOLD 0x2000

static size_t made, refused, marks;

__attribute__((constructor)) static void begin(void) {
    const char *number = getenv("REFUSED");
    made = 0;
    refused = number != NULL ? strtoul(number, NULL, 10) : 0;
}

__attribute__((destructor)) static void end(void) {
    size_t count = made;
    if (getenv("COUNTED") != NULL) fprintf(stderr, "%zu\n", count);
}

static int is_refused(size_t len) {
    if (len < SAID) {
        if (++made != refused) return 0;
        marks |= IS_REFUSED;
        return 1;
    }
    switch (len & ~(size_t)NUMBER) {
    case TELL:
        return (((made & COUNT) | marks) & len & NUMBER) != 0;
    case NOTED:
        marks |= IS_TOLD;
        return 1;
    case SAID:
        made = 0;
        refused = len & NUMBER;
        if (refused != 0) marks = 0;
    }
    return 1;
}

void *malloc(size_t len) {
    static void *(*next)(size_t);
    if (next == NULL) *(void **)&next = dlsym(RTLD_NEXT, "malloc");
    return is_refused(len) ? NULL : next(len < SAID ? len : 1);
}

void *realloc(void *held, size_t len) {
    static void *(*next)(void *, size_t);
    if (next == NULL) *(void **)&next = dlsym(RTLD_NEXT, "realloc");
    return is_refused(len) ? NULL : next(held, len);
}
