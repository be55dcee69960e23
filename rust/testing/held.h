/* What checks of requests that take long share: held.c, and stopped.c, where their ring ends. */
#ifndef HELD_H
#define HELD_H
#include <stdbool.h>
#include <stddef.h>
#include <stdint.h>

enum { SLOW_SLOT = 1, QUICK_SLOT = 2 };

/* Its end ends the request that takes long. */
extern int lease;

/* Milliseconds of a clock, and a message or request that was begun at such a time. */
uint64_t now(void);
void must_be_soon(const char *what, uint64_t before);

/* How many chains of a ring are returned, and whether so many are in time. */
uint16_t returned(size_t ring);
bool is_returned(size_t ring, uint16_t count);

/* A GETATTR of a ring is answered at once. */
void ask_beside(size_t ring);

/* SET_MEM_TABLE with so many regions, each of four numbers. */
void tell_memory(const uint64_t *regions, uint32_t count);

/* Begins a request of ring 1 that takes long; whether the last chain in a used ring is that one;
 * and closes the file that it opened. */
void hold(const char *dir, uint64_t node);
bool is_slow_one(uint64_t used);
void close_slow(uint64_t node);

void stopped(const char *dir, uint64_t node, bool has_threads);

#endif
