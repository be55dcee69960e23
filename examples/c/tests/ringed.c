/* pk_pop_ring over many pops of one queue, beside a model of when the available index is loaded: it
 * is used again while a chain before it wasn't popped. Else, after a reset, after pk_ring_find, and
 * after a pop that needed more loads than are made ahead, it is loaded again. Meanwhile the driver
 * writes any index, which isn't noticed before. */
#include "pitskhomu.h"
#include "chance.h"
#include <stdio.h>
#include <stdlib.h>
#include <string.h>

enum { SIZE = 16, DESC = 0, AVAIL = 0x1000, USED = 0x2000, BUFFERS = 0x3000, MEMORY = 0x5000 };
enum { NEXT = 1 };

static _Alignas(4096) uint8_t memories[2][MEMORY]; /* the guest's, before and after a move */
static uint8_t *memory = memories[0];
static struct pk_device device = PK_DEVICE;
static struct pk_queue queue = {
    .desc = DESC, .avail = AVAIL, .used = USED, .size = SIZE, .max_in_flight = SIZE};
static struct pk_region region;
static struct pk_ring ring;

/* The model: whether the ring has an index, and it. */
static int has_index;
static uint16_t known;

static void expect(const char *what, uint64_t found, uint64_t wanted) {
    if (found == wanted) return;
    fprintf(stderr, "FAILED: %s: %llu, and not %llu\n", what, (unsigned long long)found,
            (unsigned long long)wanted);
    exit(1);
}

static void put(size_t at, uint64_t value, size_t len) { memcpy(memory + at, &value, len); }

/* Most descriptors are chains of one each. Five lie so that each takes a load of its own: of the
 * four that begin at it, or fewer at the table's end, none is the next one. */
static void lay(void) {
    static const uint16_t next[SIZE] = {[15] = 0, [0] = 5, [5] = 10, [10] = 1};
    for (size_t k = 0; k < SIZE; k++) {
        int is_long = k == 15 || k == 0 || k == 5 || k == 10;
        put(DESC + 16 * k, BUFFERS + 64 * k, 8);
        put(DESC + 16 * k + 8, 8 + k, 4);
        put(DESC + 16 * k + 12, is_long ? NEXT : 0, 2);
        put(DESC + 16 * k + 14, next[k], 2);
    }
    for (size_t k = 0; k < SIZE; k++) put(AVAIL + 4 + 2 * k, below(SIZE), 2);
}

static uint16_t number(size_t at) {
    uint16_t found;
    memcpy(&found, memory + at, 2);
    return found;
}

/* How many loads of descriptors a chain takes: a load has up to four, to the table's end. */
static unsigned loads_of(uint16_t head) {
    unsigned loads = 1;
    size_t first = head, at = head;
    while (number(DESC + 16 * at + 12) & NEXT) {
        at = number(DESC + 16 * at + 14);
        if (at < first || at >= first + 4 || at >= SIZE) first = at, loads++;
    }
    return loads;
}

static void find(struct pk_chain *chain) {
    region = (struct pk_region){0, MEMORY, (uintptr_t)memory};
    expect("the memory", pk_chain_set_memory(chain, &device, &region, 1), PK_DONE);
    pk_ring_find(&ring, &queue, &region, 1);
    has_index = 0;
}

static void reset(uint16_t next_avail) {
    expect("a reset", pk_queue_begin(&queue, next_avail), PK_DONE);
    has_index = 0;
}

/* The driver writes an index: a chain or some more, any, or as it was. */
static void write_index(void) {
    uint16_t next = queue.next_avail;
    switch (below(8)) {
    case 0: put(AVAIL + 2, chance(), 2); break;
    case 1: put(AVAIL + 2, (uint16_t)(next - 1 - below(3)), 2); break;
    case 2: put(AVAIL + 2, next, 2); break;
    default: put(AVAIL + 2, (uint16_t)(next + below(SIZE + 1)), 2);
    }
    if (below(3) == 0) put(AVAIL + 4 + 2 * below(SIZE), below(SIZE + 2), 2);
}

/* Pops, and drops the chain so that it can be popped again, or leaves the queue behind it. */
static void pop(struct pk_chain *chain) {
    struct pk_pop_result found;
    uint16_t next = queue.next_avail, stopped;
    uint16_t head = number(AVAIL + 4 + 2 * (size_t)(next % SIZE));
    uint32_t status, wanted = PK_DONE;
    if (!has_index || known == next) known = number(AVAIL + 2), has_index = 1;
    if (known == next)
        wanted = PK_IDLE;
    else if ((uint16_t)(known - next) > SIZE)
        wanted = PK_AVAIL_TOO_FAR;
    else if (head >= SIZE)
        wanted = PK_HEAD_OUT_OF_TABLE;
    status = pk_pop_ring(chain, &queue, &ring, &found);
    expect("a pop", status, wanted);
    stopped = queue.stopped;
    if (status == PK_IDLE) return;
    if (status != PK_DONE) {
        expect("it is stopped", stopped, status);
        reset((uint16_t)chance());
        return;
    }
    expect("its head", found.head, head);
    expect("its fault", found.fault, 0);
    expect("the next", queue.next_avail, (uint16_t)(next + 1));
    if (loads_of(head) > 3) has_index = 0; /* with the ring's two more than five */
    if (below(4) == 0) {
        expect("a drop", pk_drop(chain, &queue), PK_DONE);
    } else {
        pk_abandon(chain);
        queue.next_used = queue.next_avail; /* as if it were pushed */
    }
}

static void move(struct pk_chain *chain) {
    uint8_t *other = memory == memories[0] ? memories[1] : memories[0];
    memcpy(other, memory, MEMORY);
    memory = other;
    find(chain);
}

/* The longest table behind two loads of the queue's own: it has no room among the loads that are
 * made ahead, and nothing is written behind them. */
static void keep_within(void) {
    enum { MANY = 512, TABLE = 0x4000, ALL = 0x6000 };
    static _Alignas(4096) uint8_t guest[ALL];
    static struct {
        struct pk_ring_loads loads;
        uint8_t behind[PK_LOAD_MAX];
    } kept;
    struct pk_region all = {0, ALL, (uintptr_t)guest};
    struct pk_queue wide = {.avail = 0x2000, .used = 0x3000, .size = MANY, .max_in_flight = 1};
    struct pk_ring found = {0};
    const uint64_t table = TABLE;
    const uint32_t len = PK_LOAD_MAX;
    const uint16_t offered = 1, next = NEXT, indirect = 4, second = 8;
    memcpy(guest + wide.avail + 2, &offered, 2);
    memcpy(guest + 12, &next, 2);
    memcpy(guest + 14, &second, 2);
    memcpy(guest + 16 * second, &table, 8);
    memcpy(guest + 16 * second + 8, &len, 4);
    memcpy(guest + 16 * second + 12, &indirect, 2);
    expect("a wide queue", pk_queue_begin(&wide, 0), PK_DONE);
    pk_ring_find(&found, &wide, &all, 1);
    memset(guest + TABLE, 0x5a, PK_LOAD_MAX);
    memset(kept.behind, 0xa5, sizeof kept.behind);
    pk_ring_guess(&wide, &found, &kept.loads);
    expect("loads ahead", kept.loads.count, 4);
    expect("their bytes", kept.loads.len, 4 + 64 + 64);
    for (size_t k = 0; k < sizeof kept.behind; k++)
        expect("a byte behind them", kept.behind[k], 0xa5);
}

int main(int argc, char **argv) {
    long turns = argc > 1 ? atol(argv[1]) : 100000;
    struct pk_chain chain = {0};
    chance_begin(0x2545f4914f6cdd1du);
    keep_within();
    lay();
    reset(0xfff0);
    find(&chain);
    for (long k = 0; k < turns; k++) {
        switch (below(40)) {
        case 0: reset(below(2) ? queue.next_avail : (uint16_t)chance()); break;
        case 1: find(&chain); break;
        case 2: move(&chain); break;
        case 3: ring.has_index = 0, has_index = 0; break;
        default:
            if (below(3) == 0) write_index();
            pop(&chain);
        }
    }
    pk_chain_free(&chain);
    printf("ringed: %ld turns\n", turns);
    return 0;
}
