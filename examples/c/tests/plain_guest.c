#include "plain_guest.h"
#include "chance.h"
#include <stdio.h>
#include <stdlib.h>
#include <string.h>

enum { NEXT = 1, WRITE = 2, INDIRECT = 4 };

unsigned long world;
struct pk_region regions[REGIONS];
size_t region_count;
struct pk_device device;
bool has_iommu, is_lent;
uint64_t base;
static _Alignas(PAGE) uint8_t memory[2 * PAGES * PAGE];
static uint64_t physical; /* where the guest's memory begins */
/* A page of I/O addresses: where it leads, and for which access. */
static struct {
    bool is_there;
    uint64_t guest;
    uint32_t access;
} mappings[IO_PAGES];

void expect(const char *what, uint64_t found, uint64_t wanted) {
    if (found == wanted) return;
    fprintf(stderr, "FAILED in world %lu: %s: %llx, and not %llx\n", world, what,
            (unsigned long long)found, (unsigned long long)wanted);
    abort();
}

/* ------------------------------------------------------------- memory */

/* Regions that touch or have gaps; host memory in another order, with gaps. */
static void lay_regions(void) {
    uint64_t page = 0, host = 2 * PAGES, most = below(5) ? 6 : REGIONS;
    region_count = 0;
    while (page < PAGES && region_count < most) {
        uint64_t count = ONE_OF(1, 1, 2, 3, 8, 20);
        if (most == REGIONS) count = 1;
        if (count > PAGES - page || region_count == most - 1) count = PAGES - page;
        host -= count + (below(2) && host > PAGES);
        regions[region_count++] = (struct pk_region){physical + page * PAGE, count * PAGE,
                                                     (uintptr_t)memory + host * PAGE};
        page += count + (below(4) == 0);
    }
    for (size_t k = region_count; k > 1; k--) {
        size_t other = below(k);
        struct pk_region one = regions[k - 1];
        regions[k - 1] = regions[other], regions[other] = one;
    }
}

void lay_memory(void) {
    memset(memory, 0, sizeof memory);
    memset(mappings, 0, sizeof mappings);
    physical = ONE_OF(0, 0, 0x100000000 - 8 * PAGE, 0x10000000000, (uint64_t)0 - PAGES * PAGE);
    has_iommu = below(2), is_lent = false;
    base = physical;
    if (has_iommu)
        base = ONE_OF(0, 0x100000000 - 8 * PAGE, 0x8000000000000000 - 8 * PAGE,
                      (uint64_t)0 - IO_PAGES * PAGE);
    lay_regions();
}

void map_page(uint64_t page, bool is_there, uint64_t guest, uint32_t access) {
    mappings[page].is_there = is_there;
    mappings[page].guest = guest;
    mappings[page].access = access;
}

uint64_t guest_page(uint64_t page) { return physical + page * PAGE; }

/* The region of a guest address, or NULL. */
static const struct pk_region *region_of(uint64_t guest) {
    for (size_t k = 0; k < region_count; k++)
        if (guest >= regions[k].guest && guest - regions[k].guest < regions[k].len)
            return &regions[k];
    return NULL;
}

/* Whether an I/O address has a mapping, which the table has where it is lent. */
static bool is_mapped(uint64_t at) {
    uint64_t page = (at - base) / PAGE;
    return is_lent && at >= base && page < IO_PAGES && mappings[page].is_there;
}

/* The guest address of an I/O address, for an access; without an IOMMU the same. */
static bool translate(uint64_t at, uint32_t access, uint64_t *guest) {
    uint64_t page = (at - base) / PAGE;
    *guest = at;
    if (!has_iommu) return true;
    if (!is_mapped(at) || (mappings[page].access & access) != access) return false;
    *guest = mappings[page].guest + at % PAGE;
    return true;
}

uint8_t *place(uint64_t at, uint32_t access) {
    uint64_t guest;
    if (!translate(at, access, &guest)) return NULL;
    const struct pk_region *region = region_of(guest);
    return region ? (uint8_t *)region->host + (guest - region->guest) : NULL;
}

bool reaches(uint64_t at, uint64_t len, uint32_t access) {
    if (len > UINT64_MAX - at) return false;
    for (uint64_t step; len > 0; at += step, len -= step) {
        if (!place(at, access)) return false;
        step = left_at(at) < len ? left_at(at) : len;
    }
    return true;
}

bool misses(uint64_t at, uint64_t len, uint64_t *miss_at, uint64_t *miss_len) {
    const uint64_t last = (uint64_t)0 - PAGE, end = at + len;
    *miss_at = *miss_len = 0;
    if (!has_iommu || at > last || len > last - at) return false;
    while (at < end && is_mapped(at)) at += PAGE - at % PAGE;
    if (at >= end) return false;
    *miss_at = at;
    while (at < end && !is_mapped(at)) at += PAGE - at % PAGE;
    *miss_len = (at < end ? at : end) - *miss_at;
    return true;
}

uint64_t left_at(uint64_t at) {
    uint64_t guest = 0, left = has_iommu ? PAGE - at % PAGE : UINT64_MAX;
    (void)translate(at, 0, &guest);
    const struct pk_region *region = region_of(guest);
    uint64_t there = region ? region->len - (guest - region->guest) : 0;
    return there < left ? there : left;
}

uint64_t number_at(uint64_t at, size_t len) {
    uint64_t value = 0;
    for (size_t k = len; k > 0; k--) value = value << 8 | *place(at + k - 1, READS);
    return value;
}

void put(uint64_t at, uint64_t value, size_t len) {
    bool was_lent = is_lent;
    is_lent = true;
    for (size_t k = 0; k < len; k++, value >>= 8)
        if (place(at + k, 0)) *place(at + k, 0) = (uint8_t)value;
    is_lent = was_lent;
}

/* ------------------------------------------------------------- the driver */

uint64_t some_address(uint64_t len) {
    uint64_t at = base + below(has_iommu ? IO_PAGES : PAGES) * PAGE;
    if (below(20) == 0) at = base + (has_iommu ? IO_PAGES : PAGES) * (uint64_t)PAGE;
    switch (below(8)) {
    case 0: return at;
    case 1: return at - len;                  /* it ends with a page */
    case 2: return at - below(len ? len : 1); /* it crosses the end of one */
    case 3: return at - len + below(3) - 1;
    default: return at + below(PAGE);
    }
}

static uint64_t some_length(void) {
    const uint64_t most = device.limit;
    switch (below(40)) {
    case 0: return 0;
    case 1: return ONE_OF(most - 1, most, most + 1, UINT32_MAX, chance() & UINT32_MAX);
    case 2: return ONE_OF(PAGE - 1, PAGE, PAGE + 1, 3 * PAGE);
    default: return 1 + below(below(4) ? 100 : 2 * PAGE);
    }
}

/* Writes an entry of a table. */
static void entry(uint64_t table, uint64_t index, uint64_t at, uint64_t len, uint16_t flags,
                  uint64_t next) {
    put(table + 16 * index, at, 8);
    put(table + 16 * index + 8, len, 4);
    put(table + 16 * index + 12, flags, 2);
    put(table + 16 * index + 14, next, 2);
}

/* Writes `count` ordinary entries of a table that follow one another from `index` on, and wrong
 * ones now and then. */
static void entries(uint64_t table, uint64_t index, uint64_t count, uint64_t of) {
    uint64_t written = below(count + 1);
    for (uint64_t k = 0; k < count; k++) {
        uint64_t len = some_length(), next = below(4) ? (index + 1) % of : below(of);
        uint16_t flags = (uint16_t)(k + 1 < count || below(60) == 0 ? NEXT : 0);
        if (k >= written || below(12) == 0) flags |= WRITE;
        if (below(150) == 0) flags ^= (uint16_t)ONE_OF(NEXT, INDIRECT, 8, 0x8000);
        if (below(150) == 0) next = ONE_OF(of, of - 1, 0xffff, 0);
        uint64_t at = below(100) ? some_address(len) : (uint64_t)0 - below(2 * len + 2);
        entry(table, index, at, len, flags, next);
        index = next % of;
    }
}

/* A chain of a queue, whose last entry may name a table of its own. */
static uint64_t lay_chain(const struct pk_queue *q) {
    uint64_t head = below(q->size), count = 1 + below(q->size < 6 ? q->size : 6);
    if (below(60) == 0) count = q->size;
    entries(q->desc, head, count, q->size);
    if (below(2)) return head;
    uint64_t length = 1 + below(below(6) ? 6 : q->size + 2u), table = some_address(16 * length);
    uint64_t bytes = below(20) ? 16 * length : ONE_OF(0, 8, 16 * length + 1, 16 * length - 16, 16);
    entries(table, 0, length, length);
    entry(q->desc, head, table, bytes,
          (uint16_t)(INDIRECT | (below(30) ? 0 : NEXT) | (below(10) ? 0 : WRITE)), below(q->size));
    if (below(4) || q->size == 1) return head;
    uint64_t before = (head + q->size - 1) % q->size, len = some_length();
    entry(q->desc, before, some_address(len), len, NEXT, head);
    return before;
}

void offer(const struct pk_queue *q) {
    uint64_t position = q->next_avail, count = 1 + below(3);
    if (count > q->size) count = q->size;
    for (uint64_t k = 0; k < count; k++) {
        uint64_t head = lay_chain(q);
        if (below(100) == 0) head = q->size - 1 + below(3);
        put(q->avail + 4 + 2 * ((position + k) % q->size), head, 2);
    }
    if (below(100) == 0) count = ONE_OF(0, q->size, q->size + 1, 0xffff);
    put(q->avail + 2, position + count, 2);
    put(q->avail, below(3), 2);
    put(q->avail + 4 + 2 * q->size, below(2) ? q->next_used : chance(), 2);
}
