/* The fields of struct pk_call that each kind has, for answered.c. */
#ifndef PLAIN_FIELDS_H
#define PLAIN_FIELDS_H
#include <pitskhomu.h>

/* A field that the call's kind doesn't have, and that isn't 0; or NULL. */
const char *stray_field(const struct pk_call *call);

#endif
