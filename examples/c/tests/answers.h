/* Answers for tests: of each kind a good one, from no files. `files` is a struct answers. */
#ifndef ANSWERS_H
#define ANSWERS_H
#include "../live.h"

/* Whether one call in sixteen lets other threads of the queue meet its chain, and how many calls
 * there were. */
struct answers {
    bool yields;
    _Atomic unsigned calls;
};

uint32_t answer_some(void *files, struct pk_chain *chain, struct pk_device *device,
                     const struct pk_call *call, const uint8_t *request);

#endif
