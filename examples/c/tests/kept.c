/* A program runs with each later library of its major number: the library writes the fields that
 * this header has, and no byte behind them. tools/grown runs it with a library whose struct
 * pk_pop_result has one more. */
#include <pitskhomu.h>
#include <stdio.h>
#include <stdlib.h>
#include <string.h>

enum { SIZE = 8, DESC = 0x1000, AVAIL = 0x2000, USED = 0x3000, REQUEST = 0x4000, REPLY = 0x5000 };
enum { MEMORY = 0x6000, REQUEST_LEN = 45, REPLY_LEN = 144, GUARD = 64, MARK = 0xa5 };
#define GUARDED(kind) \
    struct { \
        struct kind it; \
        uint8_t guard[GUARD]; \
    }

static _Alignas(4096) uint8_t memory[MEMORY]; /* the guest's, from its address 0 on */
static struct pk_device device = PK_DEVICE;
static struct pk_queue queue = {.desc = DESC, .avail = AVAIL, .used = USED, .size = SIZE};
static struct pk_chain chain;
static struct pk_iotlb iotlb;
static GUARDED(pk_pop_result) pop;
static GUARDED(pk_call) call;
static GUARDED(pk_stores) stores;
static GUARDED(pk_store) store;
static GUARDED(pk_miss) miss;

static void expect(const char *what, uint64_t found, uint64_t wanted) {
    if (found == wanted) return;
    fprintf(stderr, "FAILED: %s: %llu, and not %llu\n", what, (unsigned long long)found,
            (unsigned long long)wanted);
    exit(1);
}

static void check(const char *what, const uint8_t *guard) {
    for (size_t k = 0; k < GUARD; k++) expect(what, guard[k], MARK);
}

static void check_all(void) {
    check("a byte behind struct pk_pop_result", pop.guard);
    check("a byte behind struct pk_call", call.guard);
    check("a byte behind struct pk_stores", stores.guard);
    check("a byte behind struct pk_store", store.guard);
    check("a byte behind struct pk_miss", miss.guard);
}

static void put(size_t at, uint64_t value, size_t len) { memcpy(memory + at, &value, len); }

/* The driver makes a LOOKUP available. */
static void offer(void) {
    uint16_t index;
    memcpy(&index, memory + AVAIL + 2, sizeof index);
    put(REQUEST, REQUEST_LEN, 4), put(REQUEST + 4, 1, 4), put(REQUEST + 8, 77, 8);
    put(REQUEST + 16, 1, 8), memcpy(memory + REQUEST + 40, "name", 5);
    put(DESC, REQUEST, 8), put(DESC + 8, REQUEST_LEN, 4), put(DESC + 12, 1, 2);
    put(DESC + 14, 1, 2);
    put(DESC + 16, REPLY, 8), put(DESC + 24, REPLY_LEN, 4), put(DESC + 28, 2, 2);
    put(AVAIL + 2, index + 1u, 2);
}

/* A pop load by load, or in one call by its three loads. */
static uint32_t pop_one(int ahead) {
    static uint8_t bytes[PK_LOAD_MAX];
    const uintptr_t at = (uintptr_t)memory;
    struct pk_load_ahead loads[] = {{at + AVAIL + 2, 2}, {at + AVAIL + 4, 2}, {at + DESC, 64}};
    uint32_t status = PK_LOAD;
    loads[1].at += 2u * (queue.next_avail % SIZE);
    if (ahead) {
        memcpy(bytes, (const void *)loads[0].at, 2);
        memcpy(bytes + 2, (const void *)loads[1].at, 2);
        memcpy(bytes + 4, (const void *)loads[2].at, 64);
        return pk_pop_ahead(&chain, &queue, loads, 3, bytes, 68, &pop.it);
    }
    memset(&pop.it, 0, sizeof pop.it);
    while ((status = pk_pop(&chain, &queue, bytes, pop.it.load_len, &pop.it)) == PK_LOAD)
        memcpy(bytes, (const void *)pop.it.load_at, pop.it.load_len);
    return status;
}

static void serve(int ahead) {
    struct pk_entry entry = {.node = 2, .attr = {.ino = 2, .mode = 0100644, .nlink = 1}};
    uint8_t front[PK_FRONT_MAX], notify = 0;
    offer();
    memset(&pop.it, MARK, sizeof pop.it);
    expect("a pop", pop_one(ahead), PK_DONE);
    expect("the request's length", pop.it.request_len, REQUEST_LEN);
    expect("the reply buffer's length", pop.it.reply_len, REPLY_LEN);
    expect("the fields without a miss", pop.it.miss_at + pop.it.miss_len + pop.it.miss_access, 0);
    expect("a decode", pk_decode(&chain, &device, memory + REQUEST, REQUEST_LEN, &call.it), 0);
    expect("the call", call.it.kind, PK_CALL_LOOKUP);
    expect("the ticket", call.it.ticket, pop.it.ticket);
    expect("a reply", pk_reply_entry(&chain, call.it.ticket, &entry), PK_DONE);
    expect("a push", pk_push(&chain, &queue, front, sizeof front, &stores.it), PK_DONE);
    expect("the reply's length", stores.it.len, REPLY_LEN);
    expect("its end", pk_pushed(&chain, &queue, 0, &notify), PK_DONE);
    expect("its notification", notify, 1);
    check_all();
}

/* Behind a table without mappings: the first bytes that are needed are missed. */
static void look_for_misses(void) {
    expect("a new table", pk_iotlb_new(&iotlb), PK_DONE);
    expect("a loan", pk_chain_exchange_iotlb(&chain, &iotlb), PK_DONE);
    expect("a pop by an empty table", pop_one(0), PK_MISS);
    expect("what it misses", pop.it.miss_access, PK_ACCESS_READ);
    expect("the ring's page", pop.it.miss_at / 4096 * 4096, AVAIL);
    expect("the misses of no buffer", pk_find_miss(&chain, 0, 0, &miss.it), PK_IDLE);
    check_all();
}

int main(void) {
    const struct pk_region region = {.guest = 0, .len = MEMORY, .host = (uintptr_t)memory};
    memset(pop.guard, MARK, GUARD), memset(call.guard, MARK, GUARD);
    memset(stores.guard, MARK, GUARD), memset(store.guard, MARK, GUARD);
    memset(miss.guard, MARK, GUARD);
    expect("the library is of this header", (uint64_t)pk_is_compatible(), 1);
    expect("a queue begins", pk_queue_begin(&queue, 0), PK_DONE);
    expect("memory", pk_chain_set_memory(&chain, &device, &region, 1), PK_DONE);
    expect("a wish", pk_set_notification(&chain, &queue, 1, &store.it), PK_DONE);
    expect("its length", store.it.len, 2);
    serve(0);
    serve(1);
    look_for_misses();
    pk_chain_free(&chain);
    pk_iotlb_free(&iotlb);
    return 0;
}
