/* An IOMMU's table of many mappings, beside a plain one with a row for each page. Pages are mapped
 * and unmapped by chance, each now and then without memory: then nothing may change. In between a
 * chain of one buffer over some pages is popped: it has the miss, the fault or the windows that the
 * plain table says. */
#include "chance.h"
#include "scarce.h"
#include <pitskhomu.h>
#include <stdbool.h>
#include <stdio.h>
#include <stdlib.h>

enum { PAGE = 0x1000, PAGES = 24, ROWS = 96, LONGEST = 12, SIZE = 2, RING = PAGES * PAGE };
enum { WRITE = 2 };                                  /* a descriptor's flag */
#define LOW UINT64_C(0x7ffffff00000)                 /* the I/O address of the first row */
#define RINGS (LOW + UINT64_C(0x1000000))            /* and that of the queue's page */
#define GUEST UINT64_C(0x123450000)                  /* the guest's address of its memory */

static _Alignas(4096) uint8_t memory[RING + PAGE];
static const struct pk_region region = {GUEST, sizeof memory, (uintptr_t)memory};
static struct pk_device device = PK_DEVICE;
static struct pk_queue fresh = {.desc = RINGS, .avail = RINGS + 0x100, .used = RINGS + 0x200,
                                .size = SIZE};
static struct pk_chain chain;
static struct pk_iotlb table;
static struct { uint64_t page; uint32_t access; bool is_mapped; } rows[ROWS];
static long done, missed, faulty, without_memory;

static void expect(const char *what, uint64_t found, uint64_t wanted) {
    if (found == wanted) return;
    fprintf(stderr, "FAILED: %s: %llx, and not %llx\n", what, (unsigned long long)found,
            (unsigned long long)wanted);
    exit(1);
}

static void put(size_t at, uint64_t value, size_t len) {
    for (size_t k = 0; k < len; k++) memory[RING + at + k] = (uint8_t)(value >> (8 * k));
}

/* Maps pages, or removes their mappings; maybe without memory. */
static void change(void) {
    uint64_t row = below(ROWS), count = 1 + below(below(2) ? 3 : LONGEST), page;
    uint32_t access = (uint32_t)ONE_OF(PK_ACCESS_READ_WRITE, PK_ACCESS_READ_WRITE, PK_ACCESS_READ,
                                       PK_ACCESS_WRITE, PK_ACCESS_NONE);
    bool is_map = below(4) != 0;
    if (count > ROWS - row) count = ROWS - row;
    page = below(PAGES - count + 1);
    scarce_begin();
    uint32_t status = is_map ? pk_iotlb_map(&table, LOW + row * PAGE, count * PAGE,
                                            GUEST + page * PAGE, access)
                             : pk_iotlb_unmap(&table, LOW + row * PAGE, count * PAGE);
    if (scarce_end()) {
        expect("a change without memory", status, PK_OUT_OF_MEMORY);
        without_memory++;
        return;
    }
    expect("a change", status, PK_DONE);
    for (uint64_t k = 0; k < count; k++) {
        rows[row + k].is_mapped = is_map;
        rows[row + k].page = page + k;
        rows[row + k].access = access;
    }
}

/* The offset of a buffer's first byte, from one on, that is mapped, or isn't; or its length. */
static uint64_t first(uint64_t at, uint64_t from, uint64_t len, bool is_mapped) {
    while (from < len && rows[(at + from) / PAGE].is_mapped != is_mapped)
        from += PAGE - (at + from) % PAGE;
    return from < len ? from : len;
}

static bool is_allowed(uint64_t at, uint64_t len, uint32_t access) {
    for (uint64_t k = at / PAGE; k <= (at + len - 1) / PAGE; k++)
        if (!(rows[k].access & access)) return false;
    return true;
}

static uint32_t pop(struct pk_queue *queue, struct pk_pop_result *step) {
    uint8_t bytes[PK_LOAD_MAX];
    uint32_t status = pk_pop(&chain, queue, bytes, 0, step);
    while (status == PK_LOAD) {
        for (size_t k = 0; k < step->load_len; k++) bytes[k] = ((uint8_t *)step->load_at)[k];
        status = pk_pop(&chain, queue, bytes, step->load_len, step);
    }
    return status;
}

/* The windows of a chain that was popped have each byte where the plain table has it. */
static void look_at_windows(uint64_t at, uint64_t len, bool is_reply) {
    struct pk_window windows[2 * LONGEST];
    uint64_t from = 0;
    size_t count = (is_reply ? pk_reply_windows : pk_request_windows)(&chain, 0, len, windows,
                                                                      2 * LONGEST);
    for (size_t k = 0; k < count; k++)
        for (uint64_t end = from + windows[k].len, byte = from; from < end; from++) {
            uint64_t io = at + from;
            expect("a byte's place", windows[k].at + (from - byte),
                   (uintptr_t)memory + rows[io / PAGE].page * PAGE + io % PAGE);
        }
    expect("the windows' length", from, len);
}

/* A chain of one buffer. Its bytes are `len` from offset `at` of the rows on. */
static void look(void) {
    struct pk_queue queue = fresh;
    struct pk_pop_result step;
    bool is_reply = below(2);
    uint32_t access = is_reply ? PK_ACCESS_WRITE : PK_ACCESS_READ;
    uint64_t at = below(ROWS * PAGE), len = 1 + below(below(4) ? LONGEST * PAGE : 2 * PAGE);
    if (len > ROWS * PAGE - at) len = ROWS * PAGE - at;
    put(0, LOW + at, 8), put(8, len, 4), put(12, is_reply ? WRITE : 0, 2);
    expect("the table is lent", pk_chain_exchange_iotlb(&chain, &table), PK_DONE);
    uint32_t status = pop(&queue, &step);
    uint64_t gap = first(at, 0, len, false);
    if (gap < len) {
        expect("a miss", status, PK_MISS);
        expect("its address", step.miss_at, LOW + at + gap);
        expect("its length", step.miss_len, first(at, gap, len, true) - gap);
        expect("its access", step.miss_access, access);
        missed++;
    } else if (!is_allowed(at, len, access)) {
        expect("a faulty chain", status, PK_DONE);
        expect("its fault", step.fault,
               is_reply ? PK_FAULT_ROOM_UNREACHABLE : PK_FAULT_REQUEST_UNREACHABLE);
        faulty++;
    } else {
        expect("a chain", status, PK_DONE);
        expect("no fault", step.fault, 0);
        look_at_windows(at, len, is_reply);
        done++;
    }
    pk_abandon(&chain);
    expect("the table is back", pk_chain_exchange_iotlb(&chain, &table), PK_DONE);
}

int main(int argc, char **argv) {
    long rounds = argc > 1 ? atol(argv[1]) : 40000;
    chance_begin(argc > 2 ? strtoull(argv[2], NULL, 10) * 2 + 1 : 0x9e3779b97f4a7c15u);
    expect("the memory", pk_chain_set_memory(&chain, &device, &region, 1), PK_DONE);
    expect("a table", pk_iotlb_new(&table), PK_DONE);
    expect("the queue's page",
           pk_iotlb_map(&table, RINGS, PAGE, GUEST + RING, PK_ACCESS_READ_WRITE), PK_DONE);
    expect("the queue", pk_queue_begin(&fresh, 0), PK_DONE);
    put(0x102, 1, 2); /* its chain 0 is available */
    for (long k = 0; k < rounds; k++) {
        change();
        if (below(2)) look();
    }
    pk_chain_free(&chain);
    pk_iotlb_free(&table);
    printf("tables: %ld changes, %ld without memory; %ld chains, %ld with a fault, %ld missed\n",
           rounds, without_memory, done, faulty, missed);
    return 0;
}
