/* A guest for tests, in this process: memory, a queue with the device's threads (live.c), and a
 * driver that runs beside them. */
#ifndef DRIVER_H
#define DRIVER_H
#include "../live.h"
#include "answers.h"
#include <stdatomic.h>

/* The guest's memory: two regions that are far apart for the guest, and one that no descriptor
 * names. */
enum { RING_SIZE = 128, REGION_LEN = 8 << 20, QUIET_LEN = 1 << 16, REGIONS = 3 };
enum { DESC = 0x10000, AVAIL = 0x12000, USED = 0x13000, REQUESTS = 0x100000, TABLES = 0x700000 };
#define HIGH (1ull << 32) /* reply buffers lie from here on */
/* bytes of rings and requests, read at an odd address, are never such an address */
#define QUIET 0x5a3c96e17b2d0000ull

struct driver {
    uint8_t *memory;
    struct live live;
    _Atomic uint64_t options;
    struct answers answers;
    size_t thread_count;
    bool event_index;
    uint16_t offered, seen; /* chains that were made available, and that were used; */
    uint16_t told;          /* made available at the last check whether to notify */
    uint64_t served;        /* chains of the queues that were reset; */
    uint16_t most;          /* the most chains that were in flight */
};

_Noreturn void die(const char *format, ...) __attribute__((format(printf, 1, 2)));

/* Makes memory, and starts the queue, with an event index (VIRTIO 1.2, 2.7.7 and 2.7.10) or flags;
 * resets it; ends it. */
void driver_begin(struct driver *driver, size_t thread_count, bool event_index);
void driver_reset(struct driver *driver);
void driver_end(struct driver *driver);

/* The host address of guest bytes. */
uint8_t *place_of(const struct driver *driver, uint64_t guest);
_Atomic uint16_t *index_of(const struct driver *driver, uint64_t guest);

/* Writes a descriptor of a table; makes a chain available. */
void put_descriptor(const struct driver *driver, uint64_t table, unsigned k, uint64_t addr,
                    uint64_t len, unsigned flags, unsigned next);
void offer(struct driver *driver, uint16_t head);

/* Notifies the device, unless it has disabled that. */
void kick(struct driver *driver);

/* Sleeps by the rules of VIRTIO 1.2, 2.7.7, until all available chains are used; false if that
 * takes longer. */
bool wait_for_all(struct driver *driver, int milliseconds);

#endif
