/* Pops by the library, for plain.c: load by load or with loads ahead, and interrupted. */
#include "chance.h"
#include "plain_model.h"
#include "scarce.h"
#include <string.h>

/* Calls that don't come next while a pop waits for the bytes of a load. */
static void call_wrongly(struct bench *b, struct pk_queue *q, const struct pk_pop_result *step,
                         bool is_rest) {
    static uint8_t bytes[PK_LOAD_MAX];
    uint8_t front[PK_FRONT_MAX], notify;
    struct pk_pop_result again;
    struct pk_stores stores;
    struct pk_window window;
    struct pk_chain *c = &b->chain;
    size_t len = ONE_OF(step->load_len - 1, step->load_len + 1, 2, 16, 64);
    expect("the state", pk_chain_state(c), PK_STATE_POPPING);
    expect("other memory", pk_chain_set_memory(c, &device, regions, region_count),
           PK_CHAIN_IN_FLIGHT);
    expect("another ticket", pk_chain_set_ticket(c, 1), PK_CHAIN_IN_FLIGHT);
    if (has_iommu) expect("another table", pk_chain_exchange_iotlb(c, &table), PK_CHAIN_IN_FLIGHT);
    expect("a reply", pk_reply_bytes(c, b->ticket, 0), PK_WRONG_ORDER);
    expect("a push", pk_push(c, q, front, sizeof front, &stores), PK_WRONG_ORDER);
    expect("its end", pk_pushed(c, q, 0, &notify), PK_WRONG_ORDER);
    expect("a window", pk_request_windows(c, 0, 1, &window, 1), 0);
    expect("another window", pk_reply_windows(c, 0, 1, &window, 1), 0);
    expect("a use", pk_uses(c, 0, UINT64_MAX), 0);
    /* A whole entry may be passed for its first part, but not for the rest of it. */
    if (len == 16 && step->load_len < 16 && !is_rest) return;
    if (is_rest && below(2)) len = 16;
    if (len > PK_LOAD_MAX || len == step->load_len) return;
    expect("another length", pk_pop(c, q, bytes, len, &again), PK_BAD_ARGUMENT);
    expect("the load's place", again.load_at, step->load_at);
    expect("the load's length", again.load_len, step->load_len);
}

/* Each chain takes the next ticket, modulo 2^32. A faulty one doesn't tell it. */
void check_ticket(struct bench *b, uint32_t ticket) {
    if (b->has_ticket) expect("the ticket", ticket, b->fault ? 0 : b->ticket + 1);
    b->has_ticket = b->has_ticket || !b->fault;
    b->ticket = b->fault ? b->ticket + 1 : ticket;
}

/* Another handle pops the chain and drops it. Returns whether there is one that can be dropped. */
static bool pop_between(const struct bench *b, struct pk_queue *q) {
    static uint8_t bytes[PK_LOAD_MAX];
    struct bench *other = &benches[(size_t)(b - benches + 1) % CHAINS], scratch = {0};
    struct pk_pop_result step;
    size_t len = 0;
    uint32_t status;
    if (has_iommu || other->queue || model_pop(&scratch, q).status || scratch.fault) return false;
    while ((status = pk_pop(&other->chain, q, bytes, len, &step)) == PK_LOAD)
        memcpy(bytes, (const void *)step.load_at, len = step.load_len);
    expect("a pop between", status, PK_DONE);
    other->fault = 0;
    expect("its drop", pk_drop(&other->chain, q), PK_DONE);
    check_ticket(other, step.ticket);
    other->count = 0;
    return true;
}

/* Another handle's pop stops the queue, since the driver's index is wrong for a while. */
static bool stop_between(struct bench *b, struct pk_queue *q, size_t load_len) {
    static uint8_t bytes[PK_LOAD_MAX];
    struct bench *other = &benches[(size_t)(b - benches + 1) % CHAINS];
    uint64_t index = q->avail + 2, before = number_at(index, 2);
    struct pk_pop_result step;
    if (has_iommu || other->queue) return false;
    put(index, q->next_avail + q->size + 1u, 2);
    if (number_at(index, 2) == before) return false;
    expect("a load", pk_pop(&other->chain, q, bytes, 0, &step), PK_LOAD);
    memcpy(bytes, (const void *)step.load_at, 2);
    expect("a pop between", pk_pop(&other->chain, q, bytes, 2, &step), PK_AVAIL_TOO_FAR);
    put(index, before, 2);
    expect("a pop of a queue that was stopped", pk_pop(&b->chain, q, bytes, load_len, &step),
           PK_STOPPED);
    return true;
}

/* Amid a pop: it may begin again, after a drop or another handle's pop. Returns whether it does. */
static bool interrupt(struct bench *b, struct pk_queue *q, const struct pk_pop_result *step,
                      bool is_rest) {
    struct pk_pop_result none;
    static uint8_t bytes[PK_LOAD_MAX];
    switch (below(5)) {
    case 0: call_wrongly(b, q, step, is_rest); return false;
    case 4:
        /* only a whole load is refused at once, not a part of an entry; two bytes may be one */
        if (is_rest || below(4) || step->load_len % 16 > (b->table_len ? 0 : 2)) return false;
        if (!stop_between(b, q, step->load_len)) return false;
        break;
    case 1:
        if (!pop_between(b, q)) return false;
        expect("a pop between", pk_pop(&b->chain, q, bytes, step->load_len, &none), PK_OTHER_QUEUE);
        expect("the drop of a pop", pk_drop(&b->chain, &queues[below(QUEUES)]), PK_DONE);
        break;
    case 2: expect("the drop of a pop", pk_drop(&b->chain, &queues[below(QUEUES)]), PK_DONE); break;
    default: pk_abandon(&b->chain);
    }
    expect("the state", pk_chain_state(&b->chain), PK_STATE_FREE);
    return true;
}

/* While one handle has the table, no other gets one, and the place has none. */
void lend_once(const struct bench *b) {
    struct bench *other = &benches[(size_t)(b - benches + 1) % CHAINS];
    expect("no table", pk_chain_exchange_iotlb(&other->chain, &table), PK_DONE);
    expect("a map in no table", pk_iotlb_map(&table, base, PAGE, 0, READS), PK_WRONG_ORDER);
    expect("no mapping in it", pk_iotlb_unmap(&table, base, PAGE), PK_WRONG_ORDER);
}

/* Whether a load's bytes are those of an area of the device's addresses. */
static bool is_in(const struct pk_pop_result *step, uint64_t at, uint64_t len) {
    uintptr_t load = step->load_at;
    size_t left = step->load_len;
    bool began = false;
    for (uint64_t piece; len > 0; at += piece, len -= piece) {
        uintptr_t here = (uintptr_t)place(at, READS);
        piece = here ? left_at(at) : PAGE - at % PAGE;
        if (piece > len) piece = len;
        bool begins = here && load >= here && load - here < piece;
        if (began && load != here) return false;
        if (!began && !begins) continue;
        size_t part = (size_t)(piece - (load - here));
        if (left <= part) return true;
        began = true, load += part, left -= part;
    }
    return false;
}

/* A pop loads the available index, then the ring's entry, then entries of the two tables. */
static void check_load(const struct bench *b, const struct pk_queue *q,
                       const struct pk_pop_result *step, unsigned number) {
    uint64_t slot = q->avail + 4 + 2 * (uint64_t)(q->next_avail % q->size);
    if (number < 2) {
        expect("a load of the ring", step->load_len, 2);
        expect("its place", step->load_at, (uintptr_t)place(number ? slot : q->avail + 2, READS));
    } else {
        expect("a load beside the tables",
               is_in(step, q->desc, 16 * (uint64_t)q->size) || is_in(step, b->table, b->table_len),
               true);
    }
}

/* A call of pk_pop. One that lacks memory changes nothing, and is made again. */
static uint32_t pop_part(struct bench *b, struct pk_queue *q, const uint8_t *bytes, size_t len,
                         struct pk_pop_result *step) {
    struct pk_queue before = *q;
    struct pk_pop_result asked = *step;
    uint32_t state = pk_chain_state(&b->chain);
    scarce_begin();
    uint32_t status = pk_pop(&b->chain, q, bytes, len, step);
    if (!scarce_end()) return status;
    expect("a pop without memory", status, PK_OUT_OF_MEMORY);
    expect("the queue then", memcmp(&before, q, sizeof before) != 0, 0);
    expect("the state then", pk_chain_state(&b->chain), state);
    if (len) expect("the load's place then", step->load_at, asked.load_at);
    if (len) expect("the load's length then", step->load_len, asked.load_len);
    return pk_pop(&b->chain, q, bytes, len, step);
}

/* A pop in one call. One that lacks memory is under way: it is dropped, and begins again. */
static uint32_t pop_at_once(struct bench *b, struct pk_queue *q, struct pk_ring *ring,
                            struct pk_pop_result *step) {
    struct pk_queue before = *q;
    scarce_begin();
    uint32_t status = pk_pop_ring(&b->chain, q, ring, step);
    if (!scarce_end()) return status;
    expect("a pop without memory", status, PK_OUT_OF_MEMORY);
    expect("the queue then", memcmp(&before, q, sizeof before) != 0, 0);
    expect("the drop of a pop", pk_drop(&b->chain, q), PK_DONE);
    return pk_pop_ring(&b->chain, q, ring, step);
}

/* A pop by the library, load by load or with its loads ahead. */
uint32_t pop(struct bench *b, struct pk_queue *q, struct pk_pop_result *step, bool *again) {
    static uint8_t bytes[PK_LOAD_MAX];
    struct pk_ring ring = {0};
    size_t len = 0, part = 0;
    unsigned number = 0;
    uint32_t status;
    memset(step, 0xa5, sizeof *step);
    *again = false;
    pk_ring_find(&ring, q, regions, region_count);
    if (below(20) == 0)
        expect("bytes at first", pk_pop(&b->chain, q, bytes, 1, step), PK_BAD_ARGUMENT);
    if (!has_iommu && below(2)) return pop_at_once(b, q, &ring, step);
    while ((status = pop_part(b, q, bytes, len, step)) == PK_LOAD) {
        check_load(b, q, step, number++);
        bool is_rest = part % 16 != 0;
        if (below(is_rest ? 3 : 20) == 0 && (*again = interrupt(b, q, step, is_rest)))
            return status;
        part = number > 2 ? part + step->load_len : 0;
        memcpy(bytes, (const void *)step->load_at, len = step->load_len);
    }
    return status;
}
