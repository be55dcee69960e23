#ifndef CALLS_H
#define CALLS_H
#include <stdbool.h>

/* Makes calls of many kinds below a directory, which it makes, and prints what came of each. What
 * it prints is the same on any file system that does them all, so the guest's lines are compared
 * with the host's. */
int make_calls(const char *dir);

#endif
