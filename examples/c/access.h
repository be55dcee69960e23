/* The loads and stores for pitskhomu.h, in the memory of a guest that runs meanwhile. Use access.h
 * and access.c in your VMM as they are. */
#ifndef ACCESS_H
#define ACCESS_H
#include <pitskhomu.h>
#include <stdbool.h>

/* A migration's log. `mark` is called with the host address and length of each store. */
struct marker {
    void (*mark)(void *log, uintptr_t at, uint64_t len);
    void *log;
};

/* One load of 2 bytes, with acquire order. */
uint16_t load_index(uintptr_t at);

/* Enables or disables available buffer notifications (VIRTIO 1.2, 2.7.10): at most one store of 2
 * bytes, and a full barrier. Returns whether something was stored. If that enabled them, pop once
 * more: a chain may have become available before the driver could know. `marker` may be NULL. */
bool set_notification(struct pk_chain *chain, const struct pk_queue *queue, bool wanted,
                      const struct marker *marker);

/* The available index that was loaded last: its value, its address, and the queue's reset count
 * then. Zero it before its first use, and keep it with the queue, under the same lock. */
struct offered {
    uintptr_t at;
    uint32_t reset_count;
    uint16_t index;
};

/* Pops the next chain of a queue. Returns PK_DONE with a chain, PK_IDLE, or pk_pop's error. The
 * available index is loaded again only after all chains up to the last one were popped. So make all
 * pops of the queue by this function, with the same `offered`. Zero it when the queue is restored,
 * or lies in other memory. */
uint32_t take_chain(struct pk_chain *chain, struct pk_queue *queue, struct offered *offered,
                    struct pk_pop_result *pop);

/* Copies `len` bytes out of the request, from its byte `from` on. */
void gather(struct pk_chain *chain, uint64_t from, void *to, uint64_t len);

/* Copies `len` bytes into the reply buffer, from its byte `from` on, and marks none. */
void scatter(struct pk_chain *chain, uint64_t from, const void *bytes, uint64_t len);

/* Marks `len` bytes of the reply buffer, from its byte `from` on. Call it at once after each store
 * of yours there: later the chain may get an error as its reply, or be abandoned. */
void mark_data(struct pk_chain *chain, uint64_t from, uint64_t len, const struct marker *marker);

/* Copies an answer's data into the reply buffer, and marks it. `marker` may be NULL. */
void put_data(struct pk_chain *chain, uint64_t from, const void *bytes, uint64_t len,
              const struct marker *marker);

/* Loads the request's first bytes, at most PK_FIRST, and returns their number. */
size_t load_front(struct pk_chain *chain, const struct pk_pop_result *pop, uint8_t *request);

/* Decodes the request, of which `have` bytes were loaded, and loads the others that it needs, each
 * once. `request` has PK_REQUEST_MAX bytes. Returns PK_SHORT_BUFFER for a longer request, which a
 * higher limit of the device allows. */
uint32_t ask(struct pk_chain *chain, const struct pk_device *device, uint8_t *request, size_t have,
             struct pk_call *call);

/* Pushes a chain, in the order of VIRTIO 1.2, 2.7.8. Marks the stores and the reply's part of the
 * reply buffer. `marker` may be NULL. `notify` becomes true if the driver is to be notified. */
uint32_t give_back(struct pk_chain *chain, struct pk_queue *queue, const struct marker *marker,
                   bool *notify);

/* Ends this chain in any state. A chain that wasn't decoded is available again, if it is the last
 * one that was popped. Any other is pushed, without a reply if it has none. `ticket` is the pop's,
 * `notify` as with give_back. */
void give_up(struct pk_chain *chain, struct pk_queue *queue, uint32_t ticket,
             const struct marker *marker, bool *notify);

#endif
