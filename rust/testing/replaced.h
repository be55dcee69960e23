/* A daemon that is replaced by others, for the parts of the test. */
#ifndef REPLACED_H
#define REPLACED_H
#include "front.h"
#include "iommu.h"
#include "stream.h"

struct replaced {
    struct front *front; /* iommu.c's */
    struct stream stream;
    char folder[64], control[80], log[80];
    const char *const *options; /* of each daemon, ending with NULL */
    pid_t serving;              /* the daemon that serves */
    int count, refused;
};

/* Starts a daemon with a control socket, a session, and so many nodes that the guest holds. With
 * IOMMU=1 of the environment the driver is behind an IOMMU. */
void replaced_begin(struct replaced *r, const char *server, const char *dir,
                    const char *const *options, size_t nodes);

/* Ends the last daemon, which must end with 0. */
void replaced_end(struct replaced *r);

/* Starts a daemon that takes over by a socket, with options more. */
pid_t take_over(struct replaced *r, const char *control, const char *const *more);

/* Waits until a process ends: its status as the shell has it, or -1 after so many milliseconds. */
int wait_for(pid_t pid, int milliseconds);

/* Replaces the daemon: true if the new one serves, and false if it was refused. Anything else ends
 * the program. */
bool replace(struct replaced *r, const char *const *more);

/* The same where nothing may refuse it but a busy machine: tries it three times. */
bool replace_soon(struct replaced *r);

/* Whether the log of the last new daemon has these words. */
bool log_has(const struct replaced *r, const char *words);
void show_log(const struct replaced *r);

/* The front-end still reaches the one that serves. */
void check_messages(struct replaced *r);

void pause_ms(int milliseconds);

/* Parts of the test (replaced_parts.c). */
void refusals(struct replaced *r);
void kills(struct replaced *r, int count);
void race(struct replaced *r, int count);
void liars(struct replaced *r, int count);
void held(struct replaced *r);
void gone(struct replaced *r, bool has_handles, bool moves_handles);
void logged(struct replaced *r);

/* Between two daemons: each is killed, and each message is held, cut and changed (between.c). */
void try_between(struct replaced *r, const char *server, const char *dir,
                 const char *const *options, unsigned stride);
void given_up(struct replaced *r, int count);

#endif
