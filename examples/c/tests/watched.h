/* Calls of pitskhomu.h that are watched, while the heap refuses some of the library's requests for
 * memory. All memory that calls are lent lies in one struct, so that each call's changes are seen.
 * The calls of a script are made by `begin` and `again`:
 *     do begin(KIND);
 *     while (again(pk_call(..), the status that the script expects)); */
#ifndef WATCHED_H
#define WATCHED_H
#include "pitskhomu.h"
#include <stdbool.h>
#include <stddef.h>

struct heap {
    uint64_t number; /* of the request that is refused, from 1 on; 0: none is */
    /* whether the requests after it are refused too, and whether one may be refused now */
    bool goes_on, refuses;
    /* requests, refused requests, and blocks that weren't freed */
    uint64_t made, refused, held;
};
extern struct heap heap;

enum {
    PAGE = 4096,
    PAGES = 7,
    HIGH = 1,
    LOW = 3,
    LOW_MOVED = 5,
    BOUND = 2 * PAGE,
    SIZE = 64,
    JUNK = 0xa5
};
enum {
    DESC = 0,
    AVAIL = 0x400,
    USED = 0x800,
    ROOM = 0xc00,
    REQUEST = 0x1000,
    ROOM_LEN = 0x400,
    CALLS = 400,
    HANDLES = 4
};
/* A table of descriptors whose ninth crosses the end of a region, where a list of eight grows. */
enum {
    SPLIT = 8,
    TABLE = BOUND - 16 * SPLIT - 8,
    PIECE = 4,
    ROOM_PIECE = 16,
    ROOM_PIECES = 10,
    WINDOWS = 64,
    NO_LOAD = PK_LOAD_MAX + 1
};

/* The handle as calls that change nothing show it. */
struct seen {
    uint32_t pop, begun, decode, answer; /* statuses */
    struct pk_pop_result wanted, first;
    size_t request_count, room_count, range_count;
    struct pk_window request[WINDOWS], room[WINDOWS];
    struct pk_range ranges[WINDOWS];
};

/* The guest's memory, the numbers that are lent, and those that calls filled. Two regions of the
 * guest are neighbours there, but not here: the lower one is at page `low`, the other at HIGH. */
struct world {
    _Alignas(PAGE) uint8_t pages[PAGES * PAGE];
    unsigned low, offered;
    struct pk_device device, moved;
    struct pk_queue queues[2], restored[2];
    struct pk_pop_result step;
    struct pk_call call;
    struct pk_stores stores;
    uint64_t listed;
    size_t len, count;
    uint8_t front[PK_FRONT_MAX], list[512], record[256], notify;
    struct seen seen;
    uint32_t status;
};

extern struct world now;
extern struct pk_chain chains[HANDLES], *chain; /* `chain` is the handle that is looked at */
extern uint32_t tickets[HANDLES];               /* of their calls */
extern size_t at_call, call_count;

enum kind {
    SET_MEMORY,
    POP,
    SAVE,
    RESTORE,
    DECODE,
    DROP,
    REPLY,
    PUSH,
    PUSHED,
    NOTIFICATION,
    FREE,
    KINDS
};

struct watched {
    const char *name;
    uint32_t refusal; /* its status if an allocation fails; 0: it allocates nothing */
    size_t at, len;   /* the bytes that it fills: with zeros if an allocation fails, */
    bool stays;       /* or with their old values */
};
extern const struct watched kinds[KINDS];
extern enum kind kind;
extern const char *row_name;
extern uint64_t requests[KINDS]; /* without a refused one */

/* Reports a failure of the call that is made, and ends the program. */
_Noreturn void wrong(const char *what, const char *more);

/* Looks at the handle by calls that change nothing. */
void look(void);

/* Begins a call. */
void begin(enum kind next);

/* Checks the call that was made. Returns whether to make it again, since a request was refused. */
bool again(uint32_t status, uint32_t wanted);

#endif
