#include "access.h"
#include <stdatomic.h>
#include <string.h>

enum { WINDOWS = 16 };

uint16_t load_index(uintptr_t at) {
    return atomic_load_explicit((_Atomic uint16_t *)at, memory_order_acquire);
}

/* Loads each byte once. Without the fence the compiler might load a guest's byte again in place of
 * its copy. */
static void copy_out(void *to, uintptr_t at, size_t len) {
    memcpy(to, (const void *)at, len);
    atomic_signal_fence(memory_order_seq_cst);
}

/* A pop's load of 2 bytes has an even address, and is atomic: a number of a ring, or the part of a
 * table's entry at the end of a region. */
static void load(void *to, uintptr_t at, size_t len) {
    uint16_t two = len == 2 ? load_index(at) : 0;
    if (len == 2)
        memcpy(to, &two, 2);
    else
        copy_out(to, at, len);
}

/* The first load of a pop: the available index, unless the one that was loaded last has a chain
 * that wasn't popped yet. The driver stored those chains before that load, which has acquire
 * order. */
static void load_offered(void *to, const struct pk_queue *queue, struct offered *offered,
                         uintptr_t at) {
    bool has_more = offered->at == at && offered->reset_count == queue->reset_count &&
                    offered->index != queue->next_avail;
    if (!has_more) *offered = (struct offered){at, queue->reset_count, load_index(at)};
    memcpy(to, &offered->index, 2);
}

uint32_t take_chain(struct pk_chain *chain, struct pk_queue *queue, struct offered *offered,
                    struct pk_pop_result *pop) {
    uint8_t bytes[PK_LOAD_MAX];
    uint32_t status;
    bool is_first = true;
    *pop = (struct pk_pop_result){0};
    while ((status = pk_pop(chain, queue, bytes, pop->load_len, pop)) == PK_LOAD) {
        if (is_first)
            load_offered(bytes, queue, offered, pop->load_at);
        else
            load(bytes, pop->load_at, pop->load_len);
        is_first = false;
    }
    return status;
}

void gather(struct pk_chain *chain, uint64_t from, void *to, uint64_t len) {
    struct pk_window windows[WINDOWS];
    size_t count;
    while (len > 0 && (count = pk_request_windows(chain, from, len, windows, WINDOWS)) > 0)
        for (size_t k = 0; k < count; k++) {
            copy_out(to, windows[k].at, windows[k].len);
            to = (uint8_t *)to + windows[k].len, from += windows[k].len, len -= windows[k].len;
        }
}

void scatter(struct pk_chain *chain, uint64_t from, const void *bytes, uint64_t len) {
    struct pk_window windows[WINDOWS];
    size_t count;
    while (len > 0 && (count = pk_reply_windows(chain, from, len, windows, WINDOWS)) > 0)
        for (size_t k = 0; k < count; k++) {
            memcpy((void *)windows[k].at, bytes, windows[k].len);
            bytes = (const uint8_t *)bytes + windows[k].len, from += windows[k].len,
            len -= windows[k].len;
        }
}

size_t load_front(struct pk_chain *chain, const struct pk_pop_result *pop, uint8_t *request) {
    size_t len = pop->request_len < PK_FIRST ? (size_t)pop->request_len : PK_FIRST;
    gather(chain, 0, request, len);
    return len;
}

uint32_t ask(struct pk_chain *chain, const struct pk_device *device, uint8_t *request, size_t have,
             struct pk_call *call) {
    uint32_t status;
    while ((status = pk_decode(chain, device, request, have, call)) == PK_MORE) {
        /* a limit above it needs a longer buffer */
        if (call->needed > PK_REQUEST_MAX) return PK_SHORT_BUFFER;
        gather(chain, have, request + have, call->needed - have);
        have = call->needed;
    }
    return status;
}

void mark_data(struct pk_chain *chain, uint64_t from, uint64_t len, const struct marker *marker) {
    struct pk_window windows[WINDOWS];
    size_t count;
    while (len > 0 && (count = pk_reply_windows(chain, from, len, windows, WINDOWS)) > 0)
        for (size_t k = 0; k < count; k++) {
            marker->mark(marker->log, windows[k].at, windows[k].len);
            from += windows[k].len, len -= windows[k].len;
        }
}

void put_data(struct pk_chain *chain, uint64_t from, const void *bytes, uint64_t len,
              const struct marker *marker) {
    scatter(chain, from, bytes, len);
    if (marker) mark_data(chain, from, len, marker);
}

uint32_t give_back(struct pk_chain *chain, struct pk_queue *queue, const struct marker *marker,
                   bool *notify) {
    uint8_t wanted;
    uint32_t status = pk_push_ring(chain, queue, marker ? marker->mark : NULL,
                                   marker ? marker->log : NULL, &wanted);
    *notify = *notify || wanted;
    return status;
}

bool set_notification(struct pk_chain *chain, const struct pk_queue *queue, bool wanted,
                      const struct marker *marker) {
    return pk_notify_ring(chain, queue, wanted, marker ? marker->mark : NULL,
                          marker ? marker->log : NULL) == PK_DONE &&
           (wanted || !queue->event_index);
}

void give_up(struct pk_chain *chain, struct pk_queue *queue, uint32_t ticket,
             const struct marker *marker, bool *notify) {
    if (pk_drop(chain, queue) == PK_DONE) return;
    uint32_t status = pk_reply_bytes(chain, ticket, 0); /* no reply, unless it has one */
    status = give_back(chain, queue, marker, notify);
    /* its queue was reset, or must be, since a store isn't mapped */
    if (status != PK_DONE) pk_abandon(chain);
}
