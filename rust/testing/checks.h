/* What the checks share: the front-end that asks, its last reply, and whether something came out
 * otherwise. */
#ifndef CHECKS_H
#define CHECKS_H
#include "front.h"

enum { ROOT = 1 };

extern struct front front;
extern struct reply reply;
extern _Atomic bool over; /* other threads stop */
extern int failed;

/* An error of a reply, and whether something holds; a difference is told, and the checks go on. */
void expect(const char *what, int got, int wanted);
void check(const char *what, bool holds);

/* OPEN of the file `slow` takes long from now on, 45 seconds at most: until the descriptor is
 * closed. */
int lease_slow(const char *dir);

/* Offers a request whose head is descriptor 4 * k of a ring, and kicks. */
void send_apart(size_t ring, unsigned k, uint32_t opcode, uint64_t node, const void *body,
                uint32_t len, uint32_t room);

/* In held.c: one request takes so many seconds, and each message and each other request is answered
 * at once. */
void held(const char *dir, unsigned seconds);

/* In looks.c: threads that look for requests before they sleep, and so many seconds without any. */
void looks(unsigned seconds);

/* In slots.c: memory in as many slots as the back-end allows. */
void slots(void);

/* In platform.c: a device that accesses memory as the platform says, and no vIOMMU. */
void platform(void);

/* In escape.c: nothing outside the directory can be reached; nothing of one that mayn't be changed
 * is. */
void escape(const char *dir);
void readonly(void);

/* In labels.c: a new file's label, and access control lists. Each begins sessions of its own. */
void labels(const char *dir);
void access_lists(const char *dir);

/* In wild.c: a guest's root that asks for anything. */
void wild(unsigned seconds);

#endif
