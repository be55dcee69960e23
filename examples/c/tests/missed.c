/* A queue behind an IOMMU. Its table is empty at first: each pop misses a page, the test maps it,
 * and pops again. Then a mapping is removed, and others lack the access that is needed. A push uses
 * the table of its pop. */
#include <pitskhomu.h>
#include <stdbool.h>
#include <stdio.h>
#include <stdlib.h>
#include <string.h>

enum { SIZE = 8, PAGE = 0x1000, PAGES = 6, HEAD = 3 };
/* I/O addresses: page k of the guest is at 0x100000 + 0x10000 * k. */
enum { DESC, AVAIL, USED, REQUEST, REPLY };
#define AT(page) (0x100000u + 0x10000u * (uint64_t)(page))

static _Alignas(4096) uint8_t memory[PAGES * PAGE]; /* the guest's, from its address 0 on */
static struct pk_device device = PK_DEVICE;
static struct pk_queue queue = {
    .desc = AT(DESC), .avail = AT(AVAIL), .used = AT(USED), .size = SIZE};
static struct pk_chain chain;
static struct pk_iotlb table;
static struct pk_pop_result step;

static void expect(const char *what, uint64_t found, uint64_t wanted) {
    if (found == wanted) return;
    fprintf(stderr, "FAILED: %s: %llx, and not %llx\n", what, (unsigned long long)found,
            (unsigned long long)wanted);
    exit(1);
}

static void put(unsigned page, size_t at, uint64_t value, size_t len) {
    memcpy(memory + page * (size_t)PAGE + at, &value, len);
}

static void describe(unsigned index, uint64_t addr, uint32_t len, uint16_t flags, uint16_t next) {
    put(DESC, 16 * index, addr, 8);
    put(DESC, 16 * index + 8, len, 4);
    put(DESC, 16 * index + 12, flags, 2);
    put(DESC, 16 * index + 14, next, 2);
}

/* The table is lent for all calls of a pop, and for its misses. */
static void lend(void) {
    expect("the exchange", pk_chain_exchange_iotlb(&chain, &table), PK_DONE);
}

static void map(unsigned page, uint32_t access) {
    uint64_t guest = (uint64_t)page * PAGE;
    expect("the mapping", pk_iotlb_map(&table, AT(page), PAGE, guest, access), PK_DONE);
}

static uint32_t pop(void) {
    static uint8_t bytes[PK_LOAD_MAX];
    uint32_t s;
    memset(&step, 0, sizeof step);
    while ((s = pk_pop(&chain, &queue, bytes, step.load_len, &step)) == PK_LOAD)
        memcpy(bytes, (const void *)step.load_at, step.load_len);
    return s;
}

static void misses(const char *what, uint64_t at, uint64_t len, uint32_t access) {
    struct pk_queue before = queue;
    lend();
    expect(what, pop(), PK_MISS);
    lend();
    expect(what, step.miss_at, at);
    expect(what, step.miss_len, len);
    expect(what, step.miss_access, access);
    expect("the position", queue.next_avail, before.next_avail);
    expect("the count", queue.pop_count, before.pop_count);
    expect("the refusal", queue.stopped, 0);
}

static void each_part_of_the_ring(void) {
    misses("the index", AT(AVAIL) + 2, 2, PK_ACCESS_READ);
    map(AVAIL, PK_ACCESS_READ);
    misses("the used ring", AT(USED) + 4, 8, PK_ACCESS_WRITE);
    map(USED, PK_ACCESS_WRITE);
    misses("the table", AT(DESC) + 16 * HEAD, 16, PK_ACCESS_READ);
    map(DESC, PK_ACCESS_READ);
}

static void both_buffers_at_once(void) {
    struct pk_miss miss;
    lend();
    expect("the buffers", pop(), PK_MISS);
    expect("the request", pk_find_miss(&chain, 0, 0, &miss), PK_MISS);
    expect("its address", miss.at, AT(REQUEST) + 0x10);
    expect("its length", miss.len, 80);
    expect("its access", miss.access, PK_ACCESS_READ);
    expect("no more", pk_find_miss(&chain, 0, miss.at + miss.len, &miss), PK_DONE);
    expect("the reply", pk_find_miss(&chain, 1, 0, &miss), PK_MISS);
    expect("its address", miss.at, AT(REPLY));
    expect("its access", miss.access, PK_ACCESS_WRITE);
    expect("no third", pk_find_miss(&chain, 2, 0, &miss), PK_IDLE);
    lend();
    map(REQUEST, PK_ACCESS_READ);
    map(REPLY, PK_ACCESS_READ_WRITE);
}

static void the_chain(void) {
    struct pk_window window;
    lend();
    expect("the chain", pop(), PK_DONE);
    expect("the head", step.head, HEAD);
    expect("the request", pk_request_windows(&chain, 0, 80, &window, 1), 1);
    expect("its bytes", window.at, (uintptr_t)memory + REQUEST * PAGE + 0x10);
    expect("used", pk_uses(&chain, AT(REQUEST), PAGE), 1);
    expect("unused", pk_uses(&chain, AT(REQUEST), 0x10), 0);
    expect("the drop", pk_drop(&chain, &queue), PK_DONE);
    lend();
}

static void a_removed_mapping(void) {
    expect("the removal", pk_iotlb_unmap(&table, AT(REPLY), (uint64_t)0 - AT(REPLY)), PK_DONE);
    misses("the reply", AT(REPLY), 0x100, PK_ACCESS_WRITE);
    map(REPLY, PK_ACCESS_WRITE);
}

/* A chain without a reply, whose handle has a table now or hasn't. */
static void push_is(const char *what, uint32_t status) {
    struct pk_queue before = queue;
    struct pk_stores stores;
    uint8_t front[PK_FRONT_MAX], notify;
    expect(what, pk_push(&chain, &queue, front, sizeof front, &stores), status);
    if (status == PK_DONE) {
        expect(what, stores.index_at, (uintptr_t)memory + USED * PAGE + 2);
        expect(what, stores.index_guest, AT(USED) + 2);
        expect(what, pk_pushed(&chain, &queue, 0, &notify), PK_DONE);
        return;
    }
    expect(what, memcmp(&before, &queue, sizeof queue) != 0, 0);
    expect(what, pk_chain_state(&chain), PK_STATE_REPLIED);
    expect(what, stores.index_at, 0);
}

/* The used ring has another page in another table. */
static void lend_another(struct pk_iotlb *other, uint64_t guest) {
    expect("another", pk_iotlb_map(other, AT(USED), PAGE, guest, PK_ACCESS_READ_WRITE), PK_DONE);
    expect("lent", pk_chain_exchange_iotlb(&chain, other), PK_DONE);
}

static void take_back(struct pk_iotlb *other) {
    expect("taken", pk_chain_exchange_iotlb(&chain, other), PK_DONE);
}

static void a_push_uses_the_table_of_its_pop(void) {
    struct pk_iotlb other = {0};
    struct pk_window window;
    struct pk_store store;
    lend();
    expect("the chain", pop(), PK_DONE);
    expect("its reply", pk_reply_bytes(&chain, step.ticket, 0), PK_DONE);
    lend();
    push_is("a push without the table", PK_OTHER_TABLE);
    expect("a window", pk_request_windows(&chain, 0, 80, &window, 1), 0);
    expect("a store", pk_set_notification(&chain, &queue, 1, &store), PK_NOT_MAPPED);
    expect("its place", store.at | store.len, 0);
    expect("another table", pk_iotlb_new(&other), PK_DONE);
    lend_another(&other, REPLY * PAGE);
    push_is("a push by another table", PK_OTHER_TABLE);
    take_back(&other);
    expect("an unmapping", pk_iotlb_unmap(&other, AT(USED), PAGE), PK_DONE);
    take_back(&other);
    push_is("a push by an empty table", PK_OTHER_TABLE);
    take_back(&other);
    /* its own, in which other pages changed */
    expect("other pages", pk_iotlb_unmap(&table, AT(REQUEST), PAGE), PK_DONE);
    lend();
    push_is("the push", PK_DONE);
    expect("a store", pk_set_notification(&chain, &queue, 1, &store), PK_DONE);
    expect("its place", store.at, (uintptr_t)memory + USED * PAGE);
    lend();
    expect("a store without the table", pk_set_notification(&chain, &queue, 1, &store),
           PK_NOT_MAPPED);
    expect("a pop without the table", pop(), PK_MISS);
    map(REQUEST, PK_ACCESS_READ);
    pk_iotlb_free(&other);
    expect("the queue", pk_queue_begin(&queue, 0), PK_DONE);
}

/* A queue whose rings have guest physical addresses; a chain's buffers don't. */
static void a_push_without_a_table(struct pk_region *region) {
    struct pk_queue behind = queue;
    queue = (struct pk_queue){
        .desc = DESC * PAGE, .avail = AVAIL * PAGE, .used = USED * PAGE, .size = SIZE};
    expect("the queue", pk_queue_begin(&queue, 0), PK_DONE);
    expect("the memory", pk_chain_set_memory(&chain, &device, region, 1), PK_DONE);
    expect("the chain", pop(), PK_DONE);
    expect("its fault", step.fault, PK_FAULT_REQUEST_UNREACHABLE);
    lend();
    push_is("a push with a table", PK_OTHER_TABLE);
    lend();
    push_is("a push without it", PK_OTHER_TABLE); /* its addresses are I/O addresses from then on */
    pk_abandon(&chain);
    expect("the memory", pk_chain_set_memory(&chain, &device, region, 1), PK_DONE);
    expect("the queue", pk_queue_begin(&queue, 0), PK_DONE);
    expect("the chain", pop(), PK_DONE);
    struct pk_stores stores;
    uint8_t front[PK_FRONT_MAX];
    expect("the push", pk_push(&chain, &queue, front, sizeof front, &stores), PK_DONE);
    expect("its place", stores.index_at, (uintptr_t)memory + USED * PAGE + 2);
    pk_abandon(&chain);
    queue = behind;
}

static void has_fault(const char *what, uint32_t fault) {
    lend();
    expect(what, pop(), PK_DONE);
    expect(what, step.fault, fault);
    lend();
    pk_abandon(&chain);
    expect("the queue", pk_queue_begin(&queue, 0), PK_DONE);
}

/* A mapping of one access, or of none, refuses the other. */
static void refused_mappings(void) {
    map(REPLY, PK_ACCESS_READ);
    has_fault("a reply buffer that may be read", PK_FAULT_ROOM_UNREACHABLE);
    map(REPLY, PK_ACCESS_WRITE);
    map(REQUEST, PK_ACCESS_WRITE);
    has_fault("a request that may be written", PK_FAULT_REQUEST_UNREACHABLE);
    map(REQUEST, PK_ACCESS_NONE);
    has_fault("a request without access", PK_FAULT_REQUEST_UNREACHABLE);
}

/* The limit comes before the mappings: a buffer that is too long isn't missed. */
static void too_long(void) {
    expect("the removal", pk_iotlb_unmap(&table, AT(REPLY), PAGE), PK_DONE);
    describe(5, AT(REPLY), PK_REQUEST_MAX + 1, 2, 0);
    has_fault("a reply buffer over the limit", PK_FAULT_OVER_LIMIT);
    describe(5, AT(REPLY), 0x100, 2, 0);
    misses("the reply", AT(REPLY), 0x100, PK_ACCESS_WRITE);
    map(REPLY, PK_ACCESS_WRITE);
    describe(HEAD, AT(REQUEST) + 0x10, PK_REQUEST_MAX + 1, 1, 5);
    has_fault("a request over the limit", PK_FAULT_OVER_LIMIT);
    describe(HEAD, AT(REQUEST) + 0x10, 80, 1, 5);
}

static void what_is_refused(void) {
    struct pk_iotlb none = {0};
    uint64_t last = (uint64_t)0 - PAGE;
    expect("half a page", pk_iotlb_map(&table, 0x800, PAGE, 0, 1), PK_BAD_ARGUMENT);
    expect("nothing", pk_iotlb_map(&table, 0, 0, 0, 1), PK_BAD_ARGUMENT);
    expect("the end", pk_iotlb_map(&table, last, PAGE, 0, 1), PK_BAD_ARGUMENT);
    expect("no access", pk_iotlb_map(&table, 0, PAGE, 0, 4), PK_BAD_ARGUMENT);
    expect("past the end", pk_iotlb_unmap(&table, last, 2 * PAGE), PK_BAD_ARGUMENT);
    expect("no table", pk_iotlb_map(&none, 0, PAGE, 0, 1), PK_WRONG_ORDER);
    expect("no place", pk_chain_exchange_iotlb(&chain, &none), PK_WRONG_ORDER);
    lend();
    expect("a lent one", pk_iotlb_map(&table, 0, PAGE, 0, 1), PK_WRONG_ORDER);
    expect("a pop", pk_pop(&chain, &queue, memory, 0, &step), PK_LOAD);
    expect("amid a pop", pk_chain_exchange_iotlb(&chain, &table), PK_CHAIN_IN_FLIGHT);
    expect("its end", pk_drop(&chain, &queue), PK_DONE);
    lend();
}

int main(void) {
    struct pk_region region = {.guest = 0, .len = sizeof memory, .host = (uintptr_t)memory};
    describe(HEAD, AT(REQUEST) + 0x10, 80, 1, 5);
    describe(5, AT(REPLY), 0x100, 2, 0);
    put(AVAIL, 2, 1, 2);
    put(AVAIL, 4, HEAD, 2);
    expect("the queue", pk_queue_begin(&queue, 0), PK_DONE);
    expect("the memory", pk_chain_set_memory(&chain, &device, &region, 1), PK_DONE);
    expect("the table", pk_iotlb_new(&table), PK_DONE);
    each_part_of_the_ring();
    both_buffers_at_once();
    the_chain();
    a_push_uses_the_table_of_its_pop();
    a_removed_mapping();
    too_long();
    refused_mappings();
    what_is_refused();
    a_push_without_a_table(&region);
    pk_chain_free(&chain);
    pk_iotlb_free(&table);
    return 0;
}
