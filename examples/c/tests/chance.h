/* Random numbers and requests, for hostile.c and clumsy.c. */
#ifndef CHANCE_H
#define CHANCE_H
#include <stddef.h>
#include <stdint.h>

/* Each thread has its own numbers, from its seed on, which isn't 0. */
void chance_begin(uint64_t seed);
uint64_t chance(void);
uint64_t below(uint64_t n);

uint64_t one_of(const uint64_t *list, size_t count);
#define ONE_OF(...) \
    one_of((const uint64_t[]){__VA_ARGS__}, \
           sizeof((const uint64_t[]){__VA_ARGS__}) / sizeof(uint64_t))

/* A FUSE request whose parts mostly fit: an opcode, some numbers, names of a few kinds. Returns its
 * length, at most SOME_REQUEST. */
enum { SOME_REQUEST = 256 };
size_t some_request(uint8_t *at);

#endif
