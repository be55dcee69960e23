/* Numbers that pitskhomu.h allows, and others:
 *     strict [ROUNDS [SEED]]
 * Devices, queues, regions and saved records are valid, but for one number or two. Each call
 * refuses just those that its comment names, with the error that comes first, and changes nothing
 * then. */
#include "chance.h"
#include <pitskhomu.h>
#include <stdbool.h>
#include <stdio.h>
#include <stdlib.h>
#include <string.h>

enum { PAGE = 0x1000, QUEUES = 66, REGIONS = 70, HEAD = 24, EACH = 32, END = 8 };
/* Where the parts of a record lie. */
enum { MAGIC = 0, VERSION = 4, COUNT = 8, PAGE_SIZE = 12, OPTIONS = 16 };
enum { SIZE = HEAD, STOPPED = HEAD + 4, DESC = HEAD + 8, AVAIL = HEAD + 16, USED = HEAD + 24 };

/* The options of linux/fuse.h that the library knows, by their bits. */
#define KNOWN UINT64_C(0x117fbffffff)

static unsigned long round_of;
static struct pk_queue queues[QUEUES], there[QUEUES];
static uint8_t record[HEAD + EACH * 64 + END + 8];

static void expect(const char *what, uint64_t found, uint64_t wanted) {
    if (found == wanted) return;
    fprintf(stderr, "FAILED in round %lu: %s: %llx, and not %llx\n", round_of, what,
            (unsigned long long)found, (unsigned long long)wanted);
    abort();
}

/* ------------------------------------------------------------- devices and queues */

static struct pk_device some_device(void) {
    struct pk_device d = {4096u << below(5), 0, 0};
    d.limit = (uint32_t)ONE_OF(PK_REQUEST_MAX, PK_REQUEST_MAX, 0x80000000, 0x123456);
    d.options = below(2) ? chance() & KNOWN : 0;
    return d;
}

static void spoil_device(struct pk_device *d) {
    if (below(2))
        d->page_size =
            (uint32_t)ONE_OF(0, 1, 2048, 4095, 4097, 12288, 0x20000, 0x10001000, chance());
    else
        d->limit = (uint32_t)ONE_OF(0, PK_REQUEST_MAX - 1, 0x80000001, UINT32_MAX, chance());
}

static bool is_device(const struct pk_device *d) {
    bool is_page = d->page_size >= 4096 && d->page_size <= 65536;
    return is_page && (d->page_size & (d->page_size - 1)) == 0 && d->limit >= PK_REQUEST_MAX &&
           d->limit <= 0x80000000;
}

static struct pk_queue some_queue(void) {
    struct pk_queue q = {.size = (uint16_t)(1u << below(16))};
    q.desc = chance() / 32 * 16, q.avail = chance() / 4 * 2, q.used = chance() / 8 * 4;
    q.next_avail = q.next_used = (uint16_t)chance();
    q.max_in_flight = (uint16_t)ONE_OF(0, 1, q.size, below(q.size + 1u));
    q.event_index = (uint8_t)below(2);
    q.reset_count = 1 + (uint32_t)below(9), q.pop_count = (uint32_t)chance();
    return q;
}

static void spoil_queue(struct pk_queue *q) {
    uint64_t size = q->size;
    switch (below(10)) {
    case 0: q->size = (uint16_t)ONE_OF(0, 3, size + 1, size - 1, 0x8001, 0xc000, chance()); break;
    case 1: q->desc = ONE_OF(q->desc | 8, q->desc | 1, 0 - 16 * size, 0 - 16 * size - 16); break;
    case 2:
        q->avail = ONE_OF(q->avail | 1, UINT64_MAX - 5 - 2 * size, UINT64_MAX - 7 - 2 * size);
        break;
    case 3:
        q->used =
            ONE_OF(q->used | 2, q->used | 1, UINT64_MAX - 3 - 8 * size, UINT64_MAX - 7 - 8 * size);
        break;
    case 4: q->max_in_flight = (uint16_t)(size + below(3)); break;
    case 5: q->event_index = (uint8_t)ONE_OF(2, 3, 255, chance()); break;
    case 6: q->stopped = (uint16_t)ONE_OF(1, 7, 8, 9, 256, chance()); break;
    case 7: q->pushing = (uint8_t)ONE_OF(1, 2, 255); break;
    case 8: q->next_avail = (uint16_t)(q->next_used + ONE_OF(1, size, size + 1, 0xffff)); break;
    default: q->reset_count = 0;
    }
}

/* What is wrong with a queue's size and addresses, in the header's order. */
static uint32_t layout_status(const struct pk_queue *q) {
    uint64_t size = q->size;
    if (size == 0 || size > 32768 || (size & (size - 1)) != 0) return PK_BAD_QUEUE_SIZE;
    if (q->desc % 16 || q->avail % 2 || q->used % 4) return PK_BAD_QUEUE_ALIGNMENT;
    if (16 * size > UINT64_MAX - q->desc || 6 + 2 * size > UINT64_MAX - q->avail ||
        6 + 8 * size > UINT64_MAX - q->used)
        return PK_BAD_QUEUE_END;
    return PK_DONE;
}

/* And with the author's other fields; and with the library's. */
static uint32_t yours_status(const struct pk_queue *q) {
    if (layout_status(q) != PK_DONE) return layout_status(q);
    if (q->max_in_flight > q->size) return PK_BAD_MAX_IN_FLIGHT;
    return q->event_index > 1 ? PK_BAD_EVENT_INDEX : PK_DONE;
}

static uint16_t in_flight(const struct pk_queue *q) {
    return (uint16_t)(q->next_avail - q->next_used);
}

static uint32_t queue_status(const struct pk_queue *q) {
    if (yours_status(q) != PK_DONE) return yours_status(q);
    bool is_state = in_flight(q) <= q->size && q->stopped <= 8 && q->pushing <= 1;
    return is_state ? PK_DONE : PK_BAD_QUEUE_STATE;
}

static void begin_queue(void) {
    struct pk_queue q = some_queue(), before;
    uint16_t first = (uint16_t)chance();
    for (uint64_t k = below(3); k > 0; k--) spoil_queue(&q);
    before = q;
    bool is_good = yours_status(&q) == PK_DONE;
    expect("pk_queue_begin", pk_queue_begin(&q, first), yours_status(&q));
    if (is_good) {
        expect("a count of resets", q.reset_count == 0 || q.reset_count == before.reset_count, 0);
        before.reset_count = q.reset_count;
        before.next_avail = before.next_used = first;
        before.stopped = 0, before.pushing = 0;
    }
    before.pop_count = is_good ? q.pop_count : before.pop_count;
    expect("the queue", memcmp(&before, &q, sizeof q) != 0, 0);
}

/* A pop, a notification and a drop by a queue. */
static void use_queue(void) {
    static _Alignas(PAGE) uint8_t memory[PAGE];
    struct pk_region region = {0, PAGE, (uintptr_t)memory};
    struct pk_device device = some_device();
    struct pk_chain chain = {0};
    struct pk_queue q = some_queue(), before;
    struct pk_pop_result step;
    struct pk_store store;
    uint8_t byte = 0;
    for (uint64_t k = below(3); k > 0; k--) spoil_queue(&q);
    before = q;
    uint32_t wanted = queue_status(&q);
    expect("no memory", pk_pop(&chain, &q, &byte, 0, &step), PK_WRONG_ORDER);
    expect("the memory", pk_chain_set_memory(&chain, &device, &region, 1), PK_DONE);
    uint32_t notified = pk_set_notification(&chain, &q, (uint32_t)below(2), &store);
    if (wanted != PK_DONE || notified != PK_NOT_MAPPED) expect("a notification", notified, wanted);
    expect("a drop", pk_drop(&chain, &q), PK_DONE);
    uint32_t popped = pk_pop(&chain, &q, &byte, 0, &step);
    bool is_full = in_flight(&q) >= (q.max_in_flight ? q.max_in_flight : 1);
    if (q.reset_count == 0)
        expect("a pop", popped, PK_QUEUE_NOT_BEGUN);
    else if (wanted != PK_DONE)
        expect("a pop", popped, wanted);
    else if (is_full)
        expect("a pop", popped, PK_CHAIN_IN_FLIGHT);
    else if (before.stopped)
        expect("a pop", popped, PK_STOPPED);
    else
        expect("a pop", popped >= PK_BAD_ARGUMENT && popped != PK_NOT_MAPPED, 0);
    if (popped >= 2 && popped <= 8) before.stopped = (uint16_t)popped;
    expect("the queue", memcmp(&before, &q, sizeof q) != 0, 0);
    pk_chain_free(&chain);
}

/* ------------------------------------------------------------- regions */

static struct pk_region regions[REGIONS];

static uint32_t region_status(const struct pk_region *r) {
    if (r->len == 0) return PK_EMPTY_REGION;
    if (r->host % PAGE) return PK_BAD_REGION_HOST;
    if (r->guest % PAGE) return PK_BAD_REGION_GUEST;
    if (r->len % PAGE) return PK_BAD_REGION_LEN;
    if (r->len - 1 > UINT64_MAX - r->guest || r->len - 1 > UINTPTR_MAX - r->host)
        return PK_BAD_REGION_END;
    return PK_DONE;
}

/* What is wrong with the first regions: each by itself, then all. */
static uint32_t regions_status(size_t count) {
    for (size_t k = 0; k < count; k++)
        if (region_status(&regions[k]) != PK_DONE) return region_status(&regions[k]);
    if (count > PK_REGIONS_MAX) return PK_TOO_MANY_REGIONS;
    for (size_t k = 0; k < count; k++)
        for (size_t n = 0; n < k; n++)
            if (regions[k].guest <= regions[n].guest + (regions[n].len - 1) &&
                regions[n].guest <= regions[k].guest + (regions[k].len - 1))
                return PK_REGIONS_OVERLAP;
    return PK_DONE;
}

static void spoil_region(struct pk_region *r) {
    switch (below(6)) {
    case 0:
        r->len = ONE_OF(0, r->len + 1, PAGE / 2, r->len + PAGE, 0 - r->guest, UINT64_MAX);
        break;
    case 1: r->guest += ONE_OF(1, PAGE / 2, PAGE, 0 - (uint64_t)PAGE, 16 * PAGE); break;
    case 2: r->host += (uintptr_t)ONE_OF(1, 8, PAGE / 2); break;
    case 3: r->host = (uintptr_t)0 - (uintptr_t)ONE_OF(PAGE, r->len, r->len + PAGE); break;
    case 4: *r = regions[below(4)]; break;
    default: r->guest = 0 - r->len + ONE_OF(0, PAGE);
    }
}

static void set_memory(void) {
    struct pk_device device = some_device();
    struct pk_chain chain = {0};
    size_t count = below(4) ? below(6) : ONE_OF(63, 64, 65, 70);
    uint64_t at = below(2) ? 0 : chance() / PAGE * PAGE;
    for (size_t k = 0; k < REGIONS; k++) {
        uint64_t len = PAGE * (1 + below(4));
        regions[k] = (struct pk_region){at, len, (uintptr_t)(PAGE * (1 + below(1000)))};
        at += len + (below(2) ? PAGE * below(3) : 0);
    }
    for (size_t k = count < 2 ? 0 : count; k > 1; k--) {
        size_t other = below(k);
        struct pk_region one = regions[k - 1];
        regions[k - 1] = regions[other], regions[other] = one;
    }
    for (uint64_t k = below(3); k > 0 && count > 0; k--) spoil_region(&regions[below(count)]);
    if (below(8) == 0) spoil_device(&device);
    uint32_t wanted = is_device(&device) ? regions_status(count) : PK_BAD_DEVICE;
    if (below(2))
        expect("no regions", pk_chain_set_memory(&chain, &(struct pk_device)PK_DEVICE, regions, 0),
               PK_DONE);
    uint32_t state = pk_chain_state(&chain);
    expect("the memory", pk_chain_set_memory(&chain, &device, regions, count), wanted);
    expect("the state", pk_chain_state(&chain), wanted == PK_DONE ? PK_STATE_FREE : state);
    pk_chain_free(&chain);
}

/* ------------------------------------------------------------- records */

/* Spoils a queue or none of `count`, and returns the status of a save. */
static uint32_t save_status(const struct pk_device *d, size_t count) {
    if (!is_device(d)) return PK_BAD_DEVICE;
    if (d->options & ~KNOWN || count == 0 || count > PK_QUEUES_MAX) return PK_BAD_ARGUMENT;
    for (size_t k = 0; k < count; k++) {
        if (queue_status(&queues[k]) != PK_DONE) return queue_status(&queues[k]);
        if (in_flight(&queues[k])) return PK_CHAIN_IN_FLIGHT;
    }
    return PK_DONE;
}

static void put(size_t at, uint64_t value, size_t len) { memcpy(record + at, &value, len); }

static uint64_t get(size_t at, size_t len) {
    uint64_t value = 0;
    memcpy(&value, record + at, len);
    return value;
}

/* Spoils a number of a record. */
static void spoil_record(size_t count) {
    size_t queue = EACH * below(count);
    switch (below(9)) {
    case 0: put(MAGIC + below(4), chance(), 1); break;
    case 1: put(VERSION, ONE_OF(0, 1, 1, 1, 3, 0x10002, chance()), 4); break;
    case 2: put(COUNT, ONE_OF(0, count - 1, count + 1, 64, 65, 0x10001, chance()), 4); break;
    case 3: put(PAGE_SIZE, ONE_OF(0, 0, 4096, 8192, chance()), 4); break;
    case 4: put(OPTIONS, get(OPTIONS, 8) ^ UINT64_C(1) << below(64), 8); break;
    case 5: put(SIZE + queue, ONE_OF(0, 3, 0x8001, 0x8000, chance()), 2); break;
    case 6: put(STOPPED + queue, ONE_OF(0, 1, 2, 0x10000, chance()), 4); break;
    case 7: put(DESC + 8 * below(3) + queue, ONE_OF(1, 2, 4, 8, 16, UINT64_MAX - 15), 8); break;
    default:
        put(HEAD + EACH * count,
            ONE_OF(0, PK_REQUEST_MAX, get(HEAD + EACH * count, 8) | UINT64_C(1) << 32), 8);
    }
}

/* What is wrong with the queue of a record at its place, as pk_restore reads it. */
static bool is_saved_queue(size_t at) {
    struct pk_queue q = {.size = (uint16_t)get(SIZE + at, 2)};
    q.desc = get(DESC + at, 8), q.avail = get(AVAIL + at, 8), q.used = get(USED + at, 8);
    return layout_status(&q) == PK_DONE && get(STOPPED + at, 4) <= 1;
}

static uint32_t head_status(const struct pk_device *d) {
    uint64_t version = get(VERSION, 4), page_size = get(PAGE_SIZE, 4);
    if (get(MAGIC, 4) != 0x44534656) return PK_RECORD_BAD_MAGIC;
    if (version != 1 && version != 2) return PK_RECORD_BAD_VERSION;
    if (get(COUNT, 4) == 0 || get(COUNT, 4) > PK_QUEUES_MAX) return PK_RECORD_BAD_COUNT;
    if (version == 1 && page_size != 0) return PK_RECORD_BAD_RESERVED;
    if (version == 2 && page_size != d->page_size) return PK_RECORD_MISMATCH;
    return get(OPTIONS, 8) & ~KNOWN ? PK_RECORD_BAD_OPTIONS : PK_DONE;
}

/* The status of a restore from the first `len` bytes, into `lent` queues. */
static uint32_t restore_status(const struct pk_device *d, size_t len, size_t lent) {
    if (!is_device(d)) return PK_BAD_DEVICE;
    if (len < HEAD) return PK_RECORD_TRUNCATED;
    if (head_status(d)) return head_status(d);
    size_t count = (size_t)get(COUNT, 4), at = HEAD + EACH * count;
    for (size_t k = 0; k < count; k++) {
        if (len < HEAD + EACH * (k + 1)) return PK_RECORD_TRUNCATED;
        if (!is_saved_queue(EACH * k)) return PK_RECORD_BAD_QUEUE;
    }
    if (get(VERSION, 4) == 2 && len < at + END) return PK_RECORD_TRUNCATED;
    if (get(VERSION, 4) == 2 && get(at, 8) != d->limit) return PK_RECORD_MISMATCH;
    if (count > lent) return PK_SHORT_BUFFER;
    for (size_t k = 0; k < count; k++) {
        if (there[k].max_in_flight > get(SIZE + EACH * k, 2)) return PK_BAD_MAX_IN_FLIGHT;
        if (there[k].event_index > 1) return PK_BAD_EVENT_INDEX;
    }
    return PK_DONE;
}

/* A queue that was restored has the record's numbers, and the author's own. */
static void check_restored(const struct pk_queue *before, size_t k) {
    const struct pk_queue *q = &there[k];
    struct pk_queue wanted = *before;
    wanted.size = (uint16_t)get(SIZE + EACH * k, 2);
    wanted.next_avail = wanted.next_used = (uint16_t)get(SIZE + 2 + EACH * k, 2);
    wanted.stopped = (uint16_t)get(STOPPED + EACH * k, 4);
    wanted.desc = get(DESC + EACH * k, 8), wanted.avail = get(AVAIL + EACH * k, 8);
    wanted.used = get(USED + EACH * k, 8);
    wanted.pushing = 0, wanted.pop_count = q->pop_count, wanted.reset_count = q->reset_count;
    expect("a count of resets", q->reset_count == 0 || q->reset_count == before->reset_count, 0);
    expect("a restored queue", memcmp(&wanted, q, sizeof wanted) != 0, 0);
}

static void restore(struct pk_device device, size_t count) {
    struct pk_queue before[QUEUES];
    size_t len = HEAD + EACH * count + END, lent = below(4) ? count : below(count + 2), told = 9;
    for (size_t k = 0; k < QUEUES; k++)
        there[k] = (struct pk_queue){.pop_count = 7, .reset_count = 3};
    for (uint64_t k = below(3); k > 0; k--) spoil_record(count);
    if (below(4) == 0) there[below(count)].event_index = (uint8_t)below(4);
    if (below(4) == 0) there[below(count)].max_in_flight = (uint16_t)ONE_OF(1, 2, 0x8000, chance());
    if (below(4) == 0) len = below(2) ? below(len) : len + below(8);
    if (below(12) == 0) spoil_device(&device);
    if (get(COUNT, 4) > count) put(COUNT, get(COUNT, 4) > PK_QUEUES_MAX ? get(COUNT, 4) : count, 4);
    memcpy(before, there, sizeof there);
    uint64_t options = device.options = below(2) ? 5 : 0;
    uint32_t wanted = restore_status(&device, len, lent);
    expect("pk_restore", pk_restore(&device, there, lent, record, len, &told), wanted);
    bool is_told = wanted == PK_DONE || wanted == PK_SHORT_BUFFER;
    expect("the count", told, is_told ? get(COUNT, 4) : 0);
    expect("the options", device.options, wanted == PK_DONE ? get(OPTIONS, 8) : options);
    size_t done = wanted == PK_DONE ? (size_t)get(COUNT, 4) : 0;
    for (size_t k = 0; k < done; k++) check_restored(&before[k], k);
    expect("other queues",
           memcmp(before + done, there + done, sizeof *there * (QUEUES - done)) != 0, 0);
}

static void save(void) {
    struct pk_device device = some_device();
    size_t count = below(8) ? 1 + below(4) : ONE_OF(0, 63, 64, 65), len = 9, room = sizeof record;
    for (size_t k = 0; k < count; k++) queues[k] = some_queue();
    if (count && below(3) == 0) spoil_queue(&queues[below(count)]);
    if (below(9) == 0) spoil_device(&device);
    if (below(9) == 0) device.options ^= UINT64_C(1) << below(64);
    uint32_t wanted = save_status(&device, count);
    size_t needed = HEAD + EACH * count + END;
    if (below(3) == 0) room = needed - below(3) + 1;
    if (wanted == PK_DONE && room < needed) wanted = PK_SHORT_BUFFER;
    memset(record, 0xa5, sizeof record);
    expect("pk_save", pk_save(&device, queues, count, record, room, &len), wanted);
    expect("its length", len, wanted == PK_DONE || wanted == PK_SHORT_BUFFER ? needed : 0);
    if (wanted != PK_DONE) return;
    expect("its options", get(OPTIONS, 8), device.options);
    expect("its limit", get(HEAD + EACH * count, 8), device.limit);
    expect("behind it", get(needed, 8), 0xa5a5a5a5a5a5a5a5);
    for (size_t k = 0; k < count; k++) {
        expect("a position", get(SIZE + 2 + EACH * k, 2), queues[k].next_avail);
        expect("a queue that is stopped", get(STOPPED + EACH * k, 4), queues[k].stopped != 0);
    }
    restore(device, count);
}

/* ------------------------------------------------------------- a chain that stays in flight */

static _Alignas(PAGE) uint8_t guest[PAGE];

/* Pops one more chain of a queue, of no byte. Returns its ticket. */
static uint32_t pop_next(struct pk_chain *chain, struct pk_queue *q) {
    static uint8_t bytes[PK_LOAD_MAX];
    struct pk_pop_result step;
    size_t len = 0;
    uint32_t status;
    uint16_t index = (uint16_t)(q->next_avail + 1);
    memcpy(guest + q->avail + 2, &index, 2);
    while ((status = pk_pop(chain, q, bytes, len, &step)) == PK_LOAD)
        memcpy(bytes, (const void *)step.load_at, len = step.load_len);
    expect("a pop", status, PK_DONE);
    return step.ticket;
}

/* A chain stays in flight while 65536 others are popped and pushed. Then the next position is again
 * the one behind its own, but it isn't the last one that was popped. */
static void stay_for_long(void) {
    const struct pk_region region = {0, PAGE, (uintptr_t)guest};
    struct pk_device device = PK_DEVICE;
    struct pk_queue q = {.desc = 0, .avail = 0x100, .used = 0x200, .size = 4, .max_in_flight = 4};
    struct pk_chain first = {0}, other = {0};
    struct pk_stores stores;
    uint8_t front[PK_FRONT_MAX], notify;
    expect("a queue", pk_queue_begin(&q, 0), PK_DONE);
    expect("the memory", pk_chain_set_memory(&first, &device, &region, 1), PK_DONE);
    expect("the memory", pk_chain_set_memory(&other, &device, &region, 1), PK_DONE);
    (void)pop_next(&first, &q);
    for (unsigned k = 0; k < 65536; k++) {
        uint32_t ticket = pop_next(&other, &q);
        expect("a reply", pk_reply_bytes(&other, ticket, 0), PK_DONE);
        expect("a push", pk_push(&other, &q, front, sizeof front, &stores), PK_DONE);
        expect("its end", pk_pushed(&other, &q, 0, &notify), PK_DONE);
    }
    expect("a chain that isn't the last", pk_drop(&first, &q), PK_WRONG_ORDER);
    expect("the chains in flight", in_flight(&q), 1);
    pk_chain_free(&first);
    pk_chain_free(&other);
}

int main(int argc, char **argv) {
    unsigned long rounds = argc > 1 ? strtoul(argv[1], NULL, 10) : 20000;
    unsigned long seed = argc > 2 ? strtoul(argv[2], NULL, 10) : 1;
    static void (*const acts[])(void) = {begin_queue, use_queue, set_memory, save, save};
    for (; round_of < rounds; round_of++) {
        chance_begin(0x9e3779b97f4a7c15u * (seed + round_of));
        for (int k = 0; k < 8; k++) chance();
        acts[below(sizeof acts / sizeof *acts)]();
    }
    stay_for_long();
    printf("strict: %lu rounds\n", rounds);
    return 0;
}
