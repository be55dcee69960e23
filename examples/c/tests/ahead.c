/* pk_pop_ahead and pk_pop_ring beside pk_pop. Two handles pop the same chain of two queues with the
 * same numbers: one load by load, the other by loads ahead, which are right, cut short, wrong,
 * repeated, exchanged or overlapping. Result, queue and windows have to be the same, and a list
 * that is wrong from its n-th load on costs the calls of just the loads from there on. So it is
 * with loads of a pop that lacked nothing, if a page of ring, table or buffers lacks access, or if
 * a table goes on elsewhere. */
#define _DEFAULT_SOURCE
#include "pitskhomu.h"
#include "chance.h"
#include <stdbool.h>
#include <stdio.h>
#include <stdlib.h>
#include <string.h>
#include <sys/mman.h>

enum {
    SIZE = 8,
    DESC = 0x1000,
    AVAIL = 0x2000,
    USED = 0x3000,
    TABLE = 0x4000,
    BUFFERS = 0x6000,
    MEMORY = 0x10000,
    PAGE = 0x1000,
    ENTRIES = 300, /* more than a load of an indirect table has */
    MOST_LOADS = 64
};
enum { NEXT = 1, WRITE = 2, INDIRECT = 4 };

static uint8_t *memory; /* a page that can't be read follows */
static _Alignas(4096) uint8_t elsewhere[MEMORY]; /* zeros */
static struct pk_device device = PK_DEVICE;
static struct pk_region regions[2];
static size_t region_count;
static struct pk_region mapped[2]; /* what the IOMMU's table maps in this process */
static uint32_t access[2];         /* of each mapping */
static bool has_table;
static size_t table_len;         /* of each indirect table */
static size_t desc = DESC, avail = AVAIL, indirect = TABLE;
static uint64_t base;            /* the guest address of memory[0] */
static bool may_end;             /* rings may go over the end of the memory */

/* The program gets the calls of pk_pop, and counts them: pk_pop_ring makes some. */
static size_t pop_calls;
uint32_t __real_pk_pop(struct pk_chain *chain, struct pk_queue *queue, const uint8_t *loaded,
                       size_t loaded_len, struct pk_pop_result *pop);
uint32_t __wrap_pk_pop(struct pk_chain *chain, struct pk_queue *queue, const uint8_t *loaded,
                       size_t loaded_len, struct pk_pop_result *pop);
uint32_t __wrap_pk_pop(struct pk_chain *chain, struct pk_queue *queue, const uint8_t *loaded,
                       size_t loaded_len, struct pk_pop_result *pop) {
    pop_calls++;
    return __real_pk_pop(chain, queue, loaded, loaded_len, pop);
}

/* A chain's loads as pk_pop asked for them. */
struct loads {
    struct pk_load_ahead ahead[MOST_LOADS];
    size_t count, len;
    uint8_t bytes[MOST_LOADS * 64 + 2 * PK_LOAD_MAX];
};

static void expect(const char *what, uint64_t found, uint64_t wanted) {
    if (found == wanted) return;
    fprintf(stderr, "FAILED: %s: %llu, and not %llu\n", what, (unsigned long long)found,
            (unsigned long long)wanted);
    exit(1);
}

static void put(size_t at, uint64_t value, size_t len) {
    if (at + len <= MEMORY) memcpy(memory + at, &value, len);
}

static void lay_entry(size_t at, uint64_t address, uint32_t len, uint16_t flags, uint16_t next) {
    put(at, base + address, 8);
    put(at + 8, len, 4);
    put(at + 12, flags, 2);
    put(at + 14, next, 2);
}

/* A buffer's length: seldom one round 2^20 + 4096, which no request may be longer than. */
static uint32_t some_len(void) {
    return (uint32_t)(below(32) ? 1 + below(64) : 0x100fe0 + below(0x40));
}

/* Memory as a hostile guest might have it, chosen so that most chains go some way. `next_avail`
 * is the position of the next available chain. */
static void lay_chance(uint16_t next_avail) {
    size_t count = below(4) ? 1 + below(ENTRIES) : 256 - below(4);
    desc = below(8) ? DESC : MEMORY - 16 * SIZE;
    avail = below(8) ? AVAIL : MEMORY - 16 * SIZE - 6 - 2 * SIZE;
    if (desc == DESC && below(8) == 0) avail = MEMORY - 6 - 2 * SIZE;
    if (may_end && below(16) == 0) desc = MEMORY - 16 * (1 + below(SIZE - 1));
    if (may_end && below(16) == 0) avail = MEMORY - 2 * (3 + below(SIZE));
    if (below(16) == 0) avail = MEMORY - PAGE - 2; /* its flags lie on the page before */
    memset(memory, 0, MEMORY);
    table_len = 16 * count;
    for (size_t k = 0; k < SIZE; k++) {
        bool ends = below(4) == 0, table = below(4) == 0;
        uint16_t flags = (uint16_t)((ends ? 0 : NEXT) | (below(2) ? WRITE : 0));
        uint16_t next = (uint16_t)(below(3) ? (k + 1) % SIZE : below(SIZE + 1));
        if (table)
            lay_entry(desc + 16 * k, indirect + 16 * below(4), (uint32_t)table_len,
                      (uint16_t)(INDIRECT | (below(8) ? 0 : NEXT)), next);
        else
            lay_entry(desc + 16 * k, BUFFERS + 64 * k, some_len(), flags, next);
    }
    for (size_t k = 0; k < ENTRIES; k++)
        lay_entry(indirect + 16 * k, BUFFERS + k, 1,
                  (uint16_t)(below(200) ? NEXT | (k > 20 ? WRITE : 0) : WRITE),
                  (uint16_t)(below(50) ? k + 1 : below(ENTRIES)));
    for (size_t k = 0; k < SIZE; k++)
        put(avail + 4 + 2 * k, below(40) ? below(SIZE) : SIZE, 2);
    put(avail + 2, next_avail + (below(30) ? 1 + below(SIZE) : SIZE + 1), 2);
}

/* Lends a handle a table of its own, for good: it maps `mapped` to the regions. */
static void lend_table(struct pk_chain *chain) {
    struct pk_iotlb table = {0};
    expect("a table", pk_iotlb_new(&table), PK_DONE);
    for (size_t k = 0; k < region_count; k++)
        expect("a mapping",
               pk_iotlb_map(&table, mapped[k].guest, mapped[k].len, regions[k].guest, access[k]),
               PK_DONE);
    expect("lent", pk_chain_exchange_iotlb(chain, &table), PK_DONE);
    pk_iotlb_free(&table); /* the empty place */
}

static void make_handle(struct pk_chain *chain) {
    *chain = (struct pk_chain){0};
    expect("the memory", pk_chain_set_memory(chain, &device, regions, region_count), PK_DONE);
    expect("the ticket", pk_chain_set_ticket(chain, 0x1234567), PK_DONE);
    if (has_table) lend_table(chain);
}

/* Pops load by load, and notes the loads. */
static uint32_t pop_noting(struct pk_chain *chain, struct pk_queue *queue, struct loads *loads,
                           struct pk_pop_result *pop) {
    uint8_t *bytes = loads->bytes;
    uint32_t status = pk_pop(chain, queue, bytes, 0, pop);
    loads->count = loads->len = 0;
    while (status == PK_LOAD) {
        if (loads->count == MOST_LOADS || pop->load_len > sizeof loads->bytes - loads->len)
            return PK_LOAD;
        bytes = loads->bytes + loads->len;
        memcpy(bytes, (const void *)pop->load_at, pop->load_len);
        loads->ahead[loads->count++] = (struct pk_load_ahead){pop->load_at, pop->load_len};
        loads->len += pop->load_len;
        status = pk_pop(chain, queue, bytes, pop->load_len, pop);
    }
    return status;
}

/* Makes a list wrong from a load on, in one of several ways. */
static void spoil(struct loads *loads, size_t from, uint64_t way) {
    struct pk_load_ahead *one = &loads->ahead[from];
    switch (way) {
    case 0: loads->count = from; break;                     /* cut short */
    case 1: one->at += 2; break;                            /* another place */
    case 2: one->at -= 2; break;                            /* one before it */
    case 3: one->len -= 1; break;                           /* a part of it */
    case 4: one->len += 1; break;                           /* and a byte behind it */
    case 5: one->len = SIZE_MAX - 1; break;                 /* no bytes can be so many */
    case 6: *one = loads->ahead[(from + 1) % loads->count]; /* another one, or it twice */
            if (one->at == 0 || loads->count == 1) one->at += 2;
            break;
    default: one->at = 0, one->len = 0; break;
    }
}

static void compare_windows(struct pk_chain *chain, struct pk_chain *other,
                            const struct pk_pop_result *pop) {
    struct pk_window mine[2][ENTRIES + SIZE], theirs[2][ENTRIES + SIZE];
    for (int write = 0; write < 2; write++) {
        size_t most = ENTRIES + SIZE, count, same;
        count = (write ? pk_reply_windows : pk_request_windows)(
            chain, 0, write ? pop->reply_len : pop->request_len, mine[write], most);
        same = (write ? pk_reply_windows : pk_request_windows)(
            other, 0, write ? pop->reply_len : pop->request_len, theirs[write], most);
        expect("windows", same, count);
        expect("each window",
               memcmp(mine[write], theirs[write], count * sizeof mine[0][0]) != 0, 0);
    }
}

static void compare(struct pk_chain *chain, struct pk_chain *other, const struct pk_queue *queue,
                    const struct pk_queue *second, const struct pk_pop_result *pop,
                    const struct pk_pop_result *step) {
    expect("the head", step->head, pop->head);
    expect("the fault", step->fault, pop->fault);
    expect("the request", step->request_len, pop->request_len);
    expect("the reply", step->reply_len, pop->reply_len);
    expect("the ticket", step->ticket, pop->ticket);
    expect("the next", second->next_avail, queue->next_avail);
    expect("the pops", second->pop_count, queue->pop_count);
    expect("the refusal", second->stopped, queue->stopped);
    expect("the state", pk_chain_state(other), pk_chain_state(chain));
    compare_windows(chain, other, pop);
}

/* Pops by a list, and goes on load by load. Returns by how many calls. */
static size_t pop_by_list(struct pk_chain *chain, struct pk_queue *queue, const struct loads *loads,
                          struct pk_pop_result *pop, uint32_t *status) {
    uint8_t bytes[PK_LOAD_MAX];
    size_t calls = 1;
    *status = pk_pop_ahead(chain, queue, loads->ahead, loads->count, loads->bytes, loads->len, pop);
    for (; *status == PK_LOAD; calls++) {
        memcpy(bytes, (const void *)pop->load_at, pop->load_len);
        *status = pk_pop(chain, queue, bytes, pop->load_len, pop);
    }
    return calls;
}

static struct pk_queue fresh = {
    .desc = DESC, .avail = AVAIL, .used = USED, .size = SIZE, .max_in_flight = SIZE};

/* A queue in which so many chains were popped, and up to SIZE - 1 are in flight. Some used rings
 * end behind the memory: their first 3 elements are in it, half of the next one, and no other. */
static struct pk_queue after_pops(uint16_t count) {
    struct pk_queue queue = fresh;
    queue.desc = base + desc, queue.avail = base + avail;
    queue.used = base + (below(8) ? USED : MEMORY - 32);
    queue.next_avail = count, queue.next_used = (uint16_t)(count - below(SIZE));
    return queue;
}

/* How many of a pop's loads pk_pop_ring makes ahead: five, but none of a table that is longer than
 * a load, or that isn't in one region; and none at all if a ring isn't. */
static size_t made_ahead(const struct loads *loads) {
    uintptr_t tables = (uintptr_t)memory + TABLE, end = tables + 0x1000, table = 0;
    if (desc + 16 * SIZE > MEMORY || avail + 6 + 2 * SIZE > MEMORY) return 0;
    for (size_t k = 0; k < loads->count; k++) {
        uintptr_t at = loads->ahead[k].at;
        if (at >= tables && at < end + 0x1000 && table == 0) table = at; /* its first load */
        if (k == 5 || (table && table_len > PK_LOAD_MAX)) return k;
        if (table && region_count == 2 && table + table_len > end) return k;
    }
    return loads->count;
}

static void try_one(void) {
    static struct loads loads, list;
    struct pk_queue queue, second, third;
    struct pk_chain chain, other, ringing;
    struct pk_pop_result pop, step;
    struct pk_ring ring = {0};
    uint32_t status, found;
    uint16_t next_avail = (uint16_t)below(0x10000);
    lay_chance(next_avail);
    access[0] = PK_ACCESS_READ_WRITE;
    access[1] = (uint32_t)(below(2) ? PK_ACCESS_READ_WRITE : below(4)); /* of the buffers */
    queue = second = third = after_pops(next_avail);
    make_handle(&chain);
    make_handle(&other);
    make_handle(&ringing);
    status = pop_noting(&chain, &queue, &loads, &pop);
    if (status != PK_LOAD) {
        size_t from = loads.count, calls;
        list = loads;
        if (loads.count && below(4)) {
            from = below(loads.count);
            spoil(&list, from, below(8));
        }
        calls = pop_by_list(&other, &second, &list, &step, &found);
        expect("the status", found, status);
        compare(&chain, &other, &queue, &second, &pop, &step);
        /* a long chain's descriptors may lack room: then it asks earlier */
        if (loads.len < 2 * 2 + 64) expect("the calls", calls, 1 + loads.count - from);
        pk_ring_find(&ring, &third, has_table ? mapped : regions, region_count);
        pop_calls = 0;
        expect("by the ring", pk_pop_ring(&ringing, &third, &ring, &step), status);
        if (pop.fault != PK_FAULT_TOO_LONG) /* that asks for a load more */
            expect("the ring's calls", pop_calls, loads.count - made_ahead(&loads));
        compare(&chain, &ringing, &queue, &third, &pop, &step);
    }
    pk_chain_free(&chain);
    pk_chain_free(&other);
    pk_chain_free(&ringing);
}

/* Lends a handle a table of all pages; it maps one of them for another access, or not at all. */
static void lend_pages(struct pk_chain *chain, size_t odd, uint32_t its_access) {
    struct pk_iotlb table = {0};
    expect("a table", pk_iotlb_new(&table), PK_DONE);
    for (size_t page = 0; page < MEMORY; page += PAGE) {
        uint32_t granted = page == odd * PAGE ? its_access : PK_ACCESS_READ_WRITE;
        if (granted > PK_ACCESS_READ_WRITE) continue;
        expect("a mapping", pk_iotlb_map(&table, base + page, PAGE, page, granted), PK_DONE);
    }
    expect("lent", pk_chain_exchange_iotlb(chain, &table), PK_DONE);
    pk_iotlb_free(&table); /* the empty place */
}

/* A list of the loads of a pop that lacks nothing, for a handle that lacks a page of the ring, the
 * tables or the buffers: the pop ends as if it had made its loads itself. */
static void lack_one(void) {
    static struct loads loads, own;
    struct pk_queue whole, queue, second;
    struct pk_chain chains[3];
    struct pk_pop_result pop, step;
    uint32_t status, found, its_access = (uint32_t)below(5);
    size_t odd = below(MEMORY / PAGE);
    uint16_t next_avail = (uint16_t)below(0x10000);
    lay_chance(next_avail);
    whole = queue = second = after_pops(next_avail);
    for (size_t k = 0; k < 3; k++) {
        make_handle(&chains[k]);
        lend_pages(&chains[k], k == 0 ? SIZE_MAX : odd, its_access);
    }
    status = pop_noting(&chains[0], &whole, &loads, &pop);
    if (status != PK_LOAD) status = pop_noting(&chains[1], &queue, &own, &pop);
    if (status != PK_LOAD) {
        pop_by_list(&chains[2], &second, &loads, &step, &found);
        expect("the status with a page less", found, status);
        if (status == PK_MISS) expect("the miss", step.miss_at, pop.miss_at);
        compare(&chains[1], &chains[2], &queue, &second, &pop, &step);
    }
    for (size_t k = 0; k < 3; k++) pk_chain_free(&chains[k]);
}

/* A list of the loads of a pop in whole memory, for a handle whose memory goes on elsewhere behind
 * a page in which tables end: no load is taken that goes over its end. */
static void cut_memory(void) {
    static struct loads loads, own;
    const size_t cut = TABLE + PAGE;
    struct pk_queue whole, queue, second;
    struct pk_chain all, chain, other;
    struct pk_pop_result pop, step;
    uint32_t status, found;
    uint16_t next_avail = (uint16_t)below(0x10000);
    indirect = cut - 16 * (1 + below(16));
    lay_chance(next_avail);
    indirect = TABLE;
    whole = queue = second = after_pops(next_avail);
    regions[0] = (struct pk_region){base, MEMORY, (uintptr_t)memory};
    region_count = 1;
    make_handle(&all);
    regions[0].len = cut;
    regions[1] = (struct pk_region){base + cut, MEMORY - cut, (uintptr_t)elsewhere + cut};
    region_count = 2;
    make_handle(&chain);
    make_handle(&other);
    status = pop_noting(&all, &whole, &loads, &pop);
    if (status != PK_LOAD) status = pop_noting(&chain, &queue, &own, &pop);
    if (status != PK_LOAD) {
        pop_by_list(&other, &second, &loads, &step, &found);
        expect("the status in two regions", found, status);
        compare(&chain, &other, &queue, &second, &pop, &step);
    }
    pk_chain_free(&all);
    pk_chain_free(&chain);
    pk_chain_free(&other);
}

/* A list for one chain is no list for the next, and a handle that isn't free takes none. */
static void refuses(void) {
    static struct loads loads;
    struct pk_queue queue = fresh, second = fresh, before;
    struct pk_chain chain, other, zeros = {0};
    struct pk_pop_result pop;
    memset(memory, 0, MEMORY);
    lay_entry(DESC, BUFFERS, 40, NEXT, 1);
    lay_entry(DESC + 16, BUFFERS + 64, 16, WRITE, 0);
    put(AVAIL + 2, 1, 2);
    make_handle(&chain);
    make_handle(&other);
    expect("a pop", pop_noting(&chain, &queue, &loads, &pop), PK_DONE);
    expect("its loads", loads.count, 3);
    before = queue;
    expect("in flight", pk_pop_ahead(&chain, &queue, loads.ahead, 3, loads.bytes, loads.len, &pop),
           PK_WRONG_ORDER);
    expect("the queue as before", memcmp(&queue, &before, sizeof queue) != 0, 0);
    expect("no memory", pk_pop_ahead(&zeros, &queue, loads.ahead, 3, loads.bytes, loads.len, &pop),
           PK_WRONG_ORDER);
    expect("one at a time", pk_pop(&other, &second, loads.bytes, 0, &pop), PK_LOAD);
    expect("under way", pk_pop_ahead(&other, &second, loads.ahead, 3, loads.bytes, loads.len, &pop),
           PK_WRONG_ORDER);
    expect("its load", pop.load_at, (uintptr_t)memory + AVAIL + 2);
    expect("its length", pop.load_len, 2);
    expect("dropped", pk_drop(&other, &second), PK_DONE);
    second.max_in_flight = 0, second.next_avail = 1;
    expect("full", pk_pop_ahead(&other, &second, loads.ahead, 3, loads.bytes, loads.len, &pop),
           PK_CHAIN_IN_FLIGHT);
    second = (struct pk_queue){0};
    expect("zeros", pk_pop_ahead(&other, &second, loads.ahead, 3, loads.bytes, loads.len, &pop),
           PK_QUEUE_NOT_BEGUN);
    second = fresh, second.reset_count = 0;
    expect("not begun", pk_pop_ahead(&other, &second, loads.ahead, 3, loads.bytes, loads.len, &pop),
           PK_QUEUE_NOT_BEGUN);
    expect("no load of it", pop.load_len, 0);
    second = fresh, second.stopped = 3;
    expect("stopped", pk_pop_ahead(&other, &second, loads.ahead, 3, loads.bytes, loads.len, &pop),
           PK_STOPPED);
    second = fresh;
    expect("right", pk_pop_ahead(&other, &second, loads.ahead, 3, loads.bytes, loads.len, &pop),
           PK_DONE);
    expect("no request of its own", pop.request_len, 40);
    pk_chain_free(&chain);
    pk_chain_free(&other);
}

static void map_memory(void) {
    memory = mmap(NULL, MEMORY + 4096, PROT_READ | PROT_WRITE, MAP_PRIVATE | MAP_ANONYMOUS, -1, 0);
    if (memory == MAP_FAILED || mprotect(memory + MEMORY, 4096, PROT_NONE)) exit(1);
}

int main(int argc, char **argv) {
    long tries = argc > 1 ? atol(argv[1]) : 20000;
    map_memory();
    may_end = true;
    chance_begin(0x9e3779b97f4a7c15u);
    regions[0] = (struct pk_region){0, MEMORY, (uintptr_t)memory};
    region_count = 1;
    expect("the queue", pk_queue_begin(&fresh, 0), PK_DONE);
    refuses();
    for (long k = 0; k < tries; k++) try_one();
    /* the indirect table crosses two regions */
    regions[0].len = 0x5000;
    regions[1] = (struct pk_region){0x5000, MEMORY - 0x5000, (uintptr_t)memory + 0x5000};
    region_count = 2;
    for (long k = 0; k < tries; k++) try_one();
    /* there is memory for the longest buffers, of which nothing is loaded */
    regions[0].len = 0x400000;
    region_count = 1;
    may_end = false;
    for (long k = 0; k < tries; k++) try_one();
    /* the guest has all from 4 GiB on */
    base = UINT64_C(1) << 32;
    may_end = true;
    regions[0] = (struct pk_region){0, base + MEMORY, (uintptr_t)memory - (uintptr_t)base};
    for (long k = 0; k < tries; k++) try_one();
    /* the same addresses by a table: its two mappings lead to regions apart */
    regions[0] = (struct pk_region){0x100000, 0x5000, (uintptr_t)memory};
    regions[1] = (struct pk_region){0x900000, MEMORY - 0x5000, (uintptr_t)memory + 0x5000};
    mapped[0] = (struct pk_region){base, 0x5000, (uintptr_t)memory};
    mapped[1] = (struct pk_region){base + 0x5000, MEMORY - 0x5000, (uintptr_t)memory + 0x5000};
    region_count = 2;
    has_table = true;
    for (long k = 0; k < tries; k++) try_one();
    /* a page after the other lacks in the table */
    has_table = false;
    regions[0] = (struct pk_region){0, MEMORY, (uintptr_t)memory};
    region_count = 1;
    for (long k = 0; k < tries; k++) lack_one();
    for (long k = 0; k < tries; k++) cut_memory();
    printf("ahead: %ld chains\n", 7 * tries);
    return 0;
}
