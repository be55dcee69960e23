#define _GNU_SOURCE
#include "rings.h"
#include "chance.h"
#include <stdio.h>
#include <stdlib.h>
#include <string.h>
#include <sys/mman.h>

enum { TABLES = 20, BUFFERS = 28, ENTRIES = 900 };
enum { NEXT = 1, WRITE = 2, INDIRECT = 4 };

unsigned long world;
struct pk_region regions[REGIONS];
size_t region_count;
bool has_iommu;
unsigned mapped[PAGES];
static uint8_t *area;        /* the guest's memory, with gaps */
static uint8_t *host[PAGES]; /* a page of the guest, or NULL */
static uint64_t ends;        /* one of so many entries ends a chain */

void expect(const char *what, uint64_t found, uint64_t wanted) {
    if (found == wanted) return;
    fprintf(stderr, "FAILED in world %lu: %s: %llx, and not %llx\n", world, what,
            (unsigned long long)found, (unsigned long long)wanted);
    abort();
}

uint8_t *guarded(size_t len) {
    uint8_t *at = mmap(NULL, len + PAGE, PROT_NONE, MAP_PRIVATE | MAP_ANONYMOUS, -1, 0);
    if (at == MAP_FAILED || mprotect(at, len, PROT_READ | PROT_WRITE)) abort();
    return at + len;
}

/* ------------------------------------------------------------- the guest's memory */

/* An address of the driver: guest physical, or an I/O address. NULL: nothing is there. */
static uint8_t *place(uint64_t at) {
    uint64_t page = at / PAGE;
    if (page >= PAGES) return NULL;
    if (has_iommu) page = mapped[page];
    return page < PAGES && host[page] ? host[page] + at % PAGE : NULL;
}

void put(uint64_t at, uint64_t value, size_t len) {
    for (size_t k = 0; k < len; k++, value >>= 8)
        if (place(at + k)) *place(at + k) = (uint8_t)value;
}

static uint64_t get(uint64_t at, size_t len) {
    uint64_t value = 0;
    for (size_t k = len; k > 0; k--)
        value = value << 8 | (place(at + k - 1) ? *place(at + k - 1) : 0);
    return value;
}

bool is_mapped(uintptr_t at, size_t len) {
    for (size_t k = 0; k < region_count; k++)
        if (at >= regions[k].host && at - regions[k].host < regions[k].len &&
            len <= regions[k].len - (at - regions[k].host))
            return true;
    return false;
}

/* Some regions, in another order than the guest has them, with a gap behind each. */
void lay_regions(void) {
    size_t page = 0, order = below(REGIONS);
    if (!area) area = guarded(2 * PAGES * PAGE) - 2 * PAGES * PAGE;
    memset(host, 0, sizeof host);
    if (mprotect(area, 2 * PAGES * PAGE, PROT_READ | PROT_WRITE)) abort();
    memset(area, 0, 2 * PAGES * PAGE);
    if (mprotect(area, 2 * PAGES * PAGE, PROT_NONE)) abort();
    region_count = 1 + below(REGIONS);
    for (size_t k = 0; k < region_count; k++) {
        size_t left = region_count - 1 - k, most = PAGES - page - left;
        size_t count = left ? 1 + below(below(2) ? 4 : most) : most;
        if (count > most) count = most;
        uint8_t *at = area + ((k + order) % REGIONS * PAGE * PAGES / 2);
        if (count > PAGES / 2 - 1) count = PAGES / 2 - 1; /* the guest has a gap there */
        if (mprotect(at, count * PAGE, PROT_READ | PROT_WRITE)) abort();
        regions[k] = (struct pk_region){page * PAGE, count * PAGE, (uintptr_t)at};
        for (size_t n = 0; n < count; n++) host[page++] = at + n * PAGE;
        page += below(6) == 0 && page + left + 1 < PAGES;
    }
}

/* ------------------------------------------------------------- the driver */

static uint64_t some_address(void) {
    uint64_t page = BUFFERS + below(PAGES - BUFFERS);
    return below(40) ? page * PAGE + below(PAGE) : ONE_OF(chance(), (uint64_t)0 - below(64), 0);
}

static void lay_entry(uint64_t at, size_t index, size_t count) {
    bool table = below(9) == 0;
    uint16_t flags = (uint16_t)((below(ends) ? NEXT : 0) | (below(2) ? WRITE : 0));
    uint64_t next = below(4) ? (index + 1) % count : below(30) ? below(count) : below(0x10000);
    if (table) flags = (uint16_t)(INDIRECT | (below(6) ? 0 : NEXT) | (below(6) ? 0 : WRITE));
    put(at, table ? TABLES * PAGE + PAGE * below(3) + 16 * below(below(9) + 1) : some_address(), 8);
    put(at + 8, table ? below(6) ? 16 * (1 + below(600)) : below(9000)
                      : below(50) ? below(300) : chance(), 4);
    put(at + 12, flags, 2);
    put(at + 14, next, 2);
}

void offer(const struct pk_queue *q) {
    uint64_t index = get(q->avail + 2, 2), count = 1 + below(3);
    for (uint64_t k = 0; k < count; k++, index++) {
        uint64_t head = below(60) ? below(q->size) : q->size + below(3);
        put(q->avail + 4 + 2 * (index % q->size), head, 2);
        for (uint64_t n = below(6); n > 0; n--)
            lay_entry(q->desc + 16 * ((head + n) % q->size), (head + n) % q->size, q->size);
        lay_entry(q->desc + 16 * (head % q->size), head % q->size, q->size);
    }
    if (below(4)) index = q->next_avail + 1 + below(q->size);
    put(q->avail + 2, below(60) ? index : chance(), 2);
    put(q->avail, below(2), 2);
}

void scribble(const struct pk_queue *q) {
    uint8_t bytes[SOME_REQUEST];
    size_t len = some_request(bytes);
    uint64_t at = some_address();
    for (size_t k = 0; k < len; k++) put(at + k, bytes[k], 1);
    for (uint64_t n = below(4); n > 0; n--) {
        uint64_t k = below(q->size);
        lay_entry(q->desc + 16 * k, k, q->size);
        put(q->avail + 4 + 2 * k, below(q->size), 2);
        lay_entry(TABLES * PAGE + 16 * below(ENTRIES), below(256), 256);
    }
    if (below(3) == 0) put(q->avail + 2, q->next_avail + below(q->size + 1u), 2);
    if (below(30) == 0) put(below(PAGES * PAGE), chance(), 8);
}

void lay_tables(void) {
    ends = ONE_OF(2, 4, 4, 16, 64, 1000);
    for (unsigned k = 0; k < ENTRIES; k++) lay_entry(TABLES * PAGE + 16 * k, k % 256, 256);
}
