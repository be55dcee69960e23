/* The smallest loop over the library: it serves a queue until no chain is available. Its guest
 * looks a name up, and doesn't run meanwhile. monitor.c has a file system. Copy monitor.c, access.c
 * and live.c. */
#include <errno.h>
#include <pitskhomu.h>
#include <stdatomic.h>
#include <stdbool.h>
#include <stdio.h>
#include <string.h>

enum {
    SIZE = 8,
    DESC = 0x1000,
    AVAIL = 0x2000,
    USED = 0x3000,
    REQUEST = 0x4000,
    REPLY = 0x5000
};
enum { MEMORY = 0x6000, WINDOWS = 8 };

static _Alignas(4096) uint8_t memory[MEMORY]; /* the guest's, from its address 0 on */
static struct pk_device device = PK_DEVICE;
static struct pk_queue queue = {.desc = DESC, .avail = AVAIL, .used = USED, .size = SIZE};
static struct pk_ring ring;
static struct pk_chain chain;
static uint8_t request[PK_REQUEST_MAX];

/* ------------------------------------------------------------- loads and stores */

static void load(void *to, uintptr_t at, size_t len) {
    uint16_t two = 0;
    if (len == 2) two = atomic_load_explicit((_Atomic uint16_t *)at, memory_order_acquire);
    memcpy(to, len == 2 ? (const void *)&two : (const void *)at, len);
}

static void gather(uint8_t *bytes, size_t from, size_t to) {
    struct pk_window w[WINDOWS];
    size_t count;
    while (from < to && (count = pk_request_windows(&chain, from, to - from, w, WINDOWS)) > 0)
        for (size_t k = 0; k < count; from += w[k++].len)
            memcpy(bytes + from, (const void *)w[k].at, w[k].len);
}

static void scatter(const uint8_t *front, size_t len) {
    struct pk_window w[WINDOWS];
    size_t count, from = 0;
    while (from < len && (count = pk_reply_windows(&chain, from, len - from, w, WINDOWS)) > 0)
        for (size_t k = 0; k < count; from += w[k++].len)
            memcpy((void *)w[k].at, front + from, w[k].len);
}

/* ------------------------------------------------------------- one chain */

/* Loads each byte of the request once: first PK_FIRST of them, then the others that are needed. */
static uint32_t decode(const struct pk_pop_result *pop, struct pk_call *call) {
    size_t have = 0, want = pop->request_len < PK_FIRST ? (size_t)pop->request_len : PK_FIRST;
    for (;;) {
        gather(request, have, want);
        uint32_t s = pk_decode(&chain, &device, request, have = want, call);
        if (s != PK_MORE) return s;
        want = call->needed;
    }
}

/* The file system: it has every name. */
static uint32_t answer(const struct pk_call *call) {
    const uint8_t *name = request + call->name.at;
    struct pk_entry entry = {.node = 2, .attr = {.ino = 2, .mode = 0100644, .nlink = 1}};
    if (call->answer == PK_ANSWER_NONE) return PK_DONE; // FORGET and BATCH_FORGET: no reply
    switch (call->kind) {
    case PK_CALL_LOOKUP:
        if (!pk_is_name(name, call->name.len)) return pk_reply_err(&chain, call->ticket, EINVAL);
        return pk_reply_entry(&chain, call->ticket, &entry);
    case PK_CALL_INIT: return pk_reply_init(&chain, call->ticket, &device, 0);
    case PK_CALL_DESTROY: device.options = 0; return pk_reply_err(&chain, call->ticket, 0);
    default: return pk_reply_err(&chain, call->ticket, ENOSYS);
    }
}

static uint32_t serve_request(const struct pk_pop_result *pop) {
    struct pk_call call;
    uint32_t s = decode(pop, &call);
    if (s != PK_DONE) return s;
    s = answer(&call);
    if (s != PK_DONE && s != PK_NO_ROOM) s = pk_reply_err(&chain, call.ticket, EIO);
    return s == PK_NO_ROOM ? PK_DONE : s;
}

/* Stores the reply's front, the used element, and last the index, which the driver looks at. */
static uint32_t push(bool *notify) {
    uint8_t front[PK_FRONT_MAX], now;
    struct pk_stores out;
    uint16_t seen;
    uint32_t s = pk_push(&chain, &queue, front, sizeof front, &out);
    if (s != PK_DONE) return s;
    scatter(front, out.front_len);
    memcpy((void *)out.id_at, &out.id, 4);
    memcpy((void *)out.len_at, &out.len, 4);
    atomic_store_explicit((_Atomic uint16_t *)out.index_at, out.index, memory_order_release);
    atomic_thread_fence(memory_order_seq_cst);
    load(&seen, out.seen_at, 2);
    s = pk_pushed(&chain, &queue, seen, &now);
    *notify = *notify || now;
    return s;
}

/* PK_IDLE: no chain is available. Else the reason why the queue can't be served further. */
static uint32_t serve(bool *notify) {
    struct pk_pop_result pop;
    uint32_t s;
    while ((s = pk_pop_ring(&chain, &queue, &ring, &pop)) == PK_DONE) {
        if (pop.fault == 0 && (s = serve_request(&pop)) != PK_DONE) break;
        if ((s = push(notify)) != PK_DONE) break; // a faulty chain: without a reply
    }
    return s;
}

/* Enables notifications: once at the start, since an earlier device may have disabled them, and
 * before each sleep. Pop once more after it. */
static uint32_t enable_notification(void) {
    struct pk_store store;
    uint32_t s = pk_set_notification(&chain, &queue, 1, &store);
    if (s == PK_DONE && store.len)
        atomic_store_explicit((_Atomic uint16_t *)store.at, store.value, memory_order_relaxed);
    atomic_thread_fence(memory_order_seq_cst);
    return s;
}

/* ------------------------------------------------------------- a guest that doesn't run */

static void put(size_t at, uint64_t value, size_t len) { memcpy(memory + at, &value, len); }

static void offer_lookup(void) {
    put(REQUEST, 45, 4), put(REQUEST + 4, 1, 4), put(REQUEST + 8, 77, 8),
        put(REQUEST + 16, 1, 8);
    memcpy(memory + REQUEST + 40, "name", 5);
    put(DESC, REQUEST, 8), put(DESC + 8, 45, 4), put(DESC + 12, 1, 2), put(DESC + 14, 1, 2);
    put(DESC + 16, REPLY, 8), put(DESC + 24, 144, 4), put(DESC + 28, 2, 2);
    put(AVAIL + 2, 1, 2);
}

int main(void) {
    struct pk_region region = {.guest = 0, .len = MEMORY, .host = (uintptr_t)memory};
    bool notify = false;
    uint64_t node;
    if (!pk_is_compatible() || pk_queue_begin(&queue, 0)) return 1;
    if (pk_chain_set_memory(&chain, &device, &region, 1)) return 1;
    pk_ring_find(&ring, &queue, &region, 1);
    put(USED, 1, 2); /* an earlier device disabled notifications */
    if (enable_notification() || memory[USED]) return 1;
    offer_lookup();
    uint32_t s = serve(&notify);
    memcpy(&node, memory + REPLY + PK_HEADER, sizeof node);
    printf("%s; the name is node %llu; notify: %u\n", pk_status_name(s),
           (unsigned long long)node, notify);
    pk_chain_free(&chain);
    return s != PK_IDLE || node != 2 || !notify;
}
