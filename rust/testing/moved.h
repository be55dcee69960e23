/* In moved.c: files that are open while the state goes out, by `save`, and in, by `load`. */
#ifndef MOVED_H
#define MOVED_H
#include "front.h"

/* The same state as virtiofsd sends it: without what is ours. Answers its length. */
size_t as_virtiofsds(uint8_t *state, size_t len);

void move_flags(struct front *front, bool writes_back, size_t (*save)(uint8_t *),
                bool (*load)(const uint8_t *, size_t));

#endif
