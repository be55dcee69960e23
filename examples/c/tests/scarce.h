/* Requests of the library for memory, one of which is refused now and then. */
#ifndef SCARCE_H
#define SCARCE_H
#include <stdbool.h>

/* From here on one of the next three requests may be refused. */
void scarce_begin(void);
/* Ends that. Returns whether one was refused. */
bool scarce_end(void);
#endif
