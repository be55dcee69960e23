/* A queue that is served while its guest runs, by threads that sleep until the driver notifies. Use
 * live.h, live.c and live_start.c in your VMM as they are, with access.h and access.c. `kick` and
 * `call` are eventfds that don't block, as KVM's ioeventfd and irqfd and vhost-user have them. */
#ifndef LIVE_H
#define LIVE_H
#include "access.h"
#include <pitskhomu_turns.h>
#include <pthread.h>

/* Answers a call, and returns PK_DONE, PK_NO_ROOM, or an error: then the reply is EIO. A
 * READDIRPLUS that has entries isn't left to that (PK_ENTRIES). `device` is a copy of the device's
 * numbers, whose options INIT may change. Threads of other queues answer meanwhile. Put data into
 * the reply buffer by put_data, with the marker. */
typedef uint32_t answerer(void *files, struct pk_chain *chain, struct pk_device *device,
                          const struct pk_call *call, const uint8_t *request);

/* A thread, with a chain and the bytes of its request. */
struct worker {
    struct live *live;
    struct pk_chain chain;
    pthread_t thread;
    uint8_t *request;
    struct pk_pop_result pop; /* its chain, */
    uint32_t status;   /* and what came of it: PK_DONE, or an error */
    bool has_chain;
    bool is_later; /* an allocation failed: it pops again in a moment */
};

/* Set the first seven, and the others to 0. Of `queue` set the addresses, `size`, `event_index` and
 * `next_avail`. */
struct live {
    struct pk_queue queue; /* from here on the threads', under the lock */
    int kick, call;
    _Atomic uint64_t *options; /* those that INIT agreed on, for all queues of the device */
    answerer *answer;
    void *files;
    const struct marker *marker; /* or NULL */
    struct pk_ring ring;
    struct pk_turns turns;
    struct pk_region *regions;
    uint64_t served, faulty; /* pushed chains; those with a fault */
    uint32_t refused;        /* the error that stopped the queue, or 0 */
    uint16_t most;           /* the most chains that were in flight */
    pthread_mutex_t lock;
    struct worker *workers;
    size_t count;
    bool stops;
};

/* Resets the queue, and starts so many threads over the guest's memory, each with one chain in
 * flight at a time. Returns 0, or an errno; then no thread runs. */
int live_start(struct live *live, const struct pk_region *regions, size_t region_count,
               size_t thread_count);

/* Returns the error that stopped the queue (set DEVICE_NEEDS_RESET), or 0. */
uint32_t live_refusal(struct live *live);

/* Ends the threads once their chains are pushed. `queue.next_avail` is its position then. */
void live_stop(struct live *live);

/* A thread's loop, which live_start begins; the device's numbers with these options; a signal of an
 * event. */
void *live_work(void *worker);
struct pk_device live_device(uint64_t options);
void live_signal(int event);

#endif
