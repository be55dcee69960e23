/* The handle beside a plain model of VIRTIO 1.2, 2.7:
 *     plain [WORLDS [SEED]]
 * In each world a guest's memory lies in several regions, which touch or have gaps, and mostly near
 * an end of the addresses, or behind an IOMMU's table. Three handles pop, answer, push and drop
 * chains of two queues, in any order; mappings come and go; queues are reset, saved and restored.
 * After each call its results are compared with those of the model, which looks up each byte by
 * itself. */
#include "chance.h"
#include "plain_model.h"
#include "scarce.h"
#include <stdio.h>
#include <stdlib.h>
#include <string.h>

enum { WINDOWS = 6, TURNS = 60 };

struct pk_queue queues[QUEUES];
struct bench benches[CHAINS];
struct pk_iotlb table;
static unsigned long popped, faulty, missed, pushed;

/* ------------------------------------------------------------- calls */

/* Lends a handle the table, or takes it back. */
static void exchange(struct bench *b) {
    if (!has_iommu) return;
    expect("the table", pk_chain_exchange_iotlb(&b->chain, &table), PK_DONE);
    is_lent = !is_lent;
}

/* The state of a handle is that of the model. */
static void check_state(const char *what, const struct bench *b) {
    uint32_t state = !b->queue                ? PK_STATE_FREE
                     : b->pushing             ? PK_STATE_PUSHING
                     : b->replied || b->fault ? PK_STATE_REPLIED
                                              : PK_STATE_POPPED;
    expect(what, pk_chain_state(&b->chain), state);
}

/* What each descriptor lacks, from any of its addresses on. */
static void check_misses(struct bench *b) {
    for (size_t k = 0; k <= b->count; k++) {
        struct part p = k < b->count ? b->parts[k] : (struct part){0};
        struct pk_miss miss = {1, 1, 1};
        uint64_t from = below(2) ? p.at + below(p.len + 2ull) : below(2) ? 0 : chance(), at, len;
        uint64_t start = from > p.at ? from : p.at, gone = start - p.at;
        bool is_there = misses(start, gone < p.len ? p.len - gone : 0, &at, &len);
        uint32_t wanted = k == b->count ? PK_IDLE : is_there ? PK_MISS : PK_DONE;
        expect("pk_miss", pk_find_miss(&b->chain, k, from, &miss), wanted);
        if (wanted != PK_MISS) at = len = 0;
        expect("a miss", miss.at, at);
        expect("its length", miss.len, len);
        expect("its access", miss.access, wanted != PK_MISS ? 0 : p.is_written ? WRITES : READS);
    }
}

/* A chain that was popped. */
static void check_chain(struct bench *b, struct pk_queue *q, const struct pk_pop_result *step,
                        const struct pk_queue *before) {
    b->queue = q, b->position = before->next_avail, b->popped = before->pop_count;
    check_ticket(b, step->ticket);
    b->replied = b->pushing = false, b->len = 0;
    b->used_index = has_iommu ? place(q->used + 2, WRITES) : NULL;
    expect("the head", step->head, b->head);
    expect("the fault", step->fault, b->fault);
    expect("the request", step->request_len, b->request);
    expect("the reply buffer", step->reply_len, b->room);
    expect("next_avail", q->next_avail, (uint16_t)(before->next_avail + 1));
    expect("pop_count", q->pop_count, before->pop_count + 1);
    popped++, faulty += b->fault != 0;
}

static void do_pop(struct bench *b, struct pk_queue *q) {
    struct pk_queue before;
    struct pk_pop_result step;
    struct told told;
    uint32_t status;
    bool again;
    exchange(b);
    if (has_iommu && below(20) == 0) lend_once(b);
    do {
        before = *q;
        told = model_pop(b, q);
        status = pop(b, q, &step, &again);
    } while (again);
    expect("the pop", status, told.status);
    expect("the miss", step.miss_at, told.miss_at);
    expect("the miss's length", step.miss_len, told.miss_len);
    expect("the miss's access", step.miss_access, told.access);
    expect("a load", step.load_at | step.load_len, 0);
    if (told.status == PK_DONE) {
        check_chain(b, q, &step, &before);
    } else {
        expect("a chain", step.request_len | step.reply_len | step.fault | step.head, 0);
        if (told.status >= 2 && told.status <= 8) before.stopped = (uint16_t)told.status;
        expect("the queue", memcmp(&before, q, sizeof before) != 0, 0);
    }
    if (told.status == PK_MISS) check_misses(b), missed++;
    exchange(b);
    check_state("the state after a pop", b);
}

/* Windows lie where the bytes are, one behind the other, as far as memory is there. */
static void check_windows(struct bench *b, bool is_written) {
    struct pk_window windows[WINDOWS];
    uint64_t all = !b->queue ? 0 : is_written ? b->room : b->request;
    uint64_t from = below(2) ? below(all + 2) : 0, len = ONE_OF(1, 16, below(all + 2), UINT64_MAX);
    size_t most = below(WINDOWS + 1), count, used = 0;
    uint64_t done = 0, passed = 0;
    count = is_written ? pk_reply_windows(&b->chain, from, len, windows, most)
                       : pk_request_windows(&b->chain, from, len, windows, most);
    for (size_t k = 0; k < b->count && from < all; k++) {
        const struct part *p = &b->parts[k];
        if (p->is_written != is_written) continue;
        while (from + done >= passed && from + done - passed < p->len && done < len &&
               used < most) {
            uint64_t at = p->at + (from + done - passed), left = p->len - (from + done - passed);
            uint8_t *here = place(at, is_written ? WRITES : READS);
            if (!here) goto end;
            if (left > left_at(at)) left = left_at(at);
            if (left > len - done) left = len - done;
            if (used >= count) expect("too few windows", count, used + 1);
            expect("a window", windows[used].at, (uintptr_t)here);
            /* neighbours may be mapped as one */
            if (!has_iommu) expect("its length", windows[used].len, left);
            if (windows[used].len < left) expect("its length", windows[used].len, left);
            if (windows[used].len > left) {
                windows[used].at += left, windows[used].len -= left;
            } else {
                used++;
            }
            done += left;
        }
        passed += p->len;
    }
end:
    expect("the number of windows", count, used);
}

/* Ranges of guest addresses, or I/O addresses: the parts of the reply buffer's descriptors. */
static void check_ranges(struct bench *b) {
    struct pk_range ranges[WINDOWS];
    uint64_t all = b->queue ? b->room : 0, passed = 0;
    uint64_t from = below(2) ? below(all + 2) : 0, len = ONE_OF(1, 16, below(all + 2), UINT64_MAX);
    size_t most = below(WINDOWS + 1), used = 0;
    size_t count = pk_reply_ranges(&b->chain, from, len, ranges, most);
    for (size_t k = 0; k < b->count && b->queue; k++) {
        const struct part *p = &b->parts[k];
        if (!p->is_written) continue;
        uint64_t skip = from > passed ? from - passed : 0;
        passed += p->len;
        if (skip >= p->len || len == 0 || used == most) continue;
        uint64_t here = p->len - skip < len ? p->len - skip : len;
        if (used >= count) expect("too few ranges", count, used + 1);
        expect("a range", ranges[used].guest, p->at + skip);
        expect("its length", ranges[used++].len, here);
        len -= here, from += here;
    }
    expect("the number of ranges", count, used);
}

/* Whether buffers use some addresses. */
static void check_use(struct bench *b) {
    struct part p = b->count ? b->parts[below(b->count)] : (struct part){0};
    uint64_t at = below(4) ? p.at + below(p.len + 2ull) - 1 : below(2) ? 0 : p.at - below(PAGE);
    uint64_t len = ONE_OF(0, 1, 2, p.at - at, p.at - at + 1, PAGE, UINT64_MAX);
    uint8_t wanted = 0;
    for (size_t k = 0; k < b->count && b->queue && len; k++) {
        uint64_t begin = b->parts[k].at, end = begin + b->parts[k].len;
        if (begin < end && at < end && (begin < at || begin - at < len)) wanted = 1;
    }
    expect("pk_uses", pk_uses(&b->chain, at, len), wanted);
}

static void look(struct bench *b) {
    exchange(b);
    check_windows(b, false);
    check_windows(b, true);
    exchange(b);
    check_ranges(b);
    check_use(b);
}

/* Bytes of the author's own are the reply. */
static void do_reply(struct bench *b) {
    uint64_t len =
        below(4) ? below(b->room + 1) : ONE_OF(b->room, b->room + 1, UINT32_MAX, chance());
    uint32_t wanted = !b->queue || b->fault || b->replied || b->pushing ? PK_WRONG_ORDER
                      : len > b->room                                   ? PK_LONG_REPLY
                                                                        : PK_DONE;
    if (below(4) == 0 && wanted != PK_WRONG_ORDER) {
        uint32_t other = b->ticket + (uint32_t)ONE_OF(1, UINT32_MAX, 0x10000, 0x80000000);
        expect("another ticket", pk_reply_bytes(&b->chain, other, len), PK_OTHER_CALL);
    }
    expect("a reply", pk_reply_bytes(&b->chain, b->ticket, len), wanted);
    if (wanted == PK_DONE) b->replied = true, b->len = len;
    check_state("the state after a reply", b);
}

/* Undoes a pop: only of the chain that was popped last, and wasn't answered. */
static void do_drop(struct bench *b, struct pk_queue *q) {
    struct pk_queue before = *q;
    uint32_t wanted = PK_DONE;
    bool is_taken = b->queue && !b->fault && !b->replied && !b->pushing;
    if (b->queue && !is_taken)
        wanted = PK_WRONG_ORDER;
    else if (b->queue && b->queue != q)
        wanted = PK_OTHER_QUEUE;
    else if (b->queue && q->next_avail != (uint16_t)(b->position + 1))
        wanted = PK_WRONG_ORDER;
    if (b->queue && wanted == PK_DONE) before.next_avail--, before.pop_count++;
    expect("a drop", pk_drop(&b->chain, q), wanted);
    if (wanted == PK_DONE) b->queue = NULL;
    expect("the queue after a drop", memcmp(&before, q, sizeof before) != 0, 0);
    check_state("the state after a drop", b);
}

/* The stores of a push. */
static void check_stores(const struct bench *b, const struct pk_queue *q,
                         const struct pk_stores *stores) {
    uint64_t at = element(q, q->next_used), seen = q->event_index ? used_event(q) : q->avail;
    expect("the front", stores->front_len, 0);
    expect("the chain's number", stores->id, b->head);
    expect("the reply's length", stores->len, b->len);
    expect("the number's place", stores->id_at, (uintptr_t)place(at, WRITES));
    expect("the length's place", stores->len_at, (uintptr_t)place(at + 4, WRITES));
    expect("the index's place", stores->index_at, (uintptr_t)place(q->used + 2, WRITES));
    expect("the index", stores->index, (uint16_t)(q->next_used + 1));
    expect("the place to look at", stores->seen_at, (uintptr_t)place(seen, READS));
    expect("the element's address", stores->element_guest, at);
    expect("the index's address", stores->index_guest, q->used + 2);
}

/* What a push by this queue returns. */
static uint32_t push_status(const struct bench *b, const struct pk_queue *q) {
    uint64_t at = element(q, q->next_used), seen = q->event_index ? used_event(q) : q->avail;
    if (!b->queue || b->pushing || !(b->replied || b->fault)) return PK_WRONG_ORDER;
    if (b->queue != q) return PK_OTHER_QUEUE;
    if (q->pushing) return PK_PUSHING;
    if (has_iommu && (!b->used_index || place(q->used + 2, WRITES) != b->used_index))
        return PK_OTHER_TABLE;
    return reaches(at, 4, WRITES) && reaches(at + 4, 4, WRITES) &&
                   reaches(q->used + 2, 2, WRITES) && reaches(seen, 2, READS)
               ? PK_DONE
               : PK_NOT_MAPPED;
}

/* Another queue of the same numbers has other addresses, or another size: the chain isn't its. */
static void push_elsewhere(struct bench *b, const struct pk_queue *q) {
    struct pk_queue other = *q, copy = *q;
    struct pk_stores stores;
    uint8_t front[PK_FRONT_MAX], notify;
    uint64_t *places[] = {&other.desc, &other.avail, &other.used};
    uint64_t *place_of = places[below(3)];
    *place_of = *place_of >= 64 ? *place_of - 16 : *place_of + 16;
    if (below(4) == 0) other = *q, other.size *= 2;
    if (pk_queue_begin(&copy, 0) || other.size > 32768) return;
    copy = other;
    if (pk_queue_begin(&copy, 0) != PK_DONE) return; /* its fields aren't valid */
    copy = other;
    uint32_t status = b->pushing ? pk_pushed(&b->chain, &copy, 0, &notify)
                      : b->replied || b->fault
                          ? pk_push(&b->chain, &copy, front, sizeof front, &stores)
                          : pk_drop(&b->chain, &copy);
    expect("another queue of the same numbers", status, PK_OTHER_QUEUE);
    expect("that queue", memcmp(&copy, &other, sizeof copy) != 0, 0);
}

static void do_push(struct bench *b, struct pk_queue *q) {
    static const struct pk_stores none;
    struct pk_queue before = *q;
    struct pk_stores stores;
    uint8_t front[PK_FRONT_MAX];
    memset(&stores, 0xa5, sizeof stores);
    bool is_lacking = below(8) == 0;
    if (b->queue == q && below(8) == 0) push_elsewhere(b, q);
    if (!is_lacking) exchange(b);
    uint32_t wanted = push_status(b, q);
    expect("a push", pk_push(&b->chain, q, front, below(PK_FRONT_MAX + 1), &stores), wanted);
    if (wanted == PK_DONE || wanted == PK_NOT_MAPPED) before.pushing = 1, b->pushing = true;
    if (wanted == PK_DONE) check_stores(b, q, &stores);
    if (wanted != PK_DONE)
        expect("no stores", memcmp(&none, &stores, offsetof(struct pk_stores, index)) != 0, 0);
    expect("the queue after a push", memcmp(&before, q, sizeof before) != 0, 0);
    if (!is_lacking) exchange(b);
    check_state("the state after a push", b);
}

static void do_pushed(struct bench *b, struct pk_queue *q) {
    struct pk_queue before = *q;
    uint16_t seen = (uint16_t)ONE_OF(0, 1, 2, 0xfffe, q->next_used, q->next_used + 1, chance());
    uint8_t notify = 7;
    uint32_t wanted = !b->pushing ? PK_WRONG_ORDER : b->queue != q ? PK_OTHER_QUEUE : PK_DONE;
    bool is_told = wanted == PK_DONE && (q->event_index ? seen == q->next_used : !(seen & 1));
    expect("the end of a push", pk_pushed(&b->chain, q, seen, &notify), wanted);
    expect("the notification", notify, is_told);
    if (wanted == PK_DONE) before.next_used++, before.pushing = 0;
    if (wanted == PK_DONE) b->queue = NULL, b->pushing = false, pushed++;
    expect("the queue after the end", memcmp(&before, q, sizeof before) != 0, 0);
    check_state("the state after the end of a push", b);
}

/* Notifications by the driver. */
static void do_notification(struct bench *b, const struct pk_queue *q) {
    uint32_t on = (uint32_t)below(2);
    uint64_t at = q->event_index ? avail_event(q) : q->used;
    struct pk_store store = {1, 1, 1};
    exchange(b);
    bool is_none = q->event_index && !on, is_there = reaches(at, 2, WRITES);
    expect("a notification", pk_set_notification(&b->chain, q, on, &store),
           is_none || is_there ? PK_DONE : PK_NOT_MAPPED);
    if (is_none) is_there = false;
    expect("its store", store.at, is_there ? (uintptr_t)place(at, WRITES) : 0);
    expect("its length", store.len, is_there ? 2 : 0);
    expect("its value", store.value, !is_there ? 0 : q->event_index ? q->next_avail : !on);
    exchange(b);
}

/* ------------------------------------------------------------- the queues, and the table */

/* A queue is reset: its chains are refused, and their handles freed. */
static void do_reset(struct pk_queue *q) {
    struct pk_queue before = *q;
    uint16_t first = (uint16_t)ONE_OF(0, 0xfffe, 0xffff, 0x7fff, chance());
    expect("a reset", pk_queue_begin(q, first), PK_DONE);
    expect("another count", q->reset_count == before.reset_count || q->reset_count == 0, 0);
    before.next_avail = before.next_used = first, before.stopped = before.pushing = 0;
    before.reset_count = q->reset_count, before.pop_count = q->pop_count;
    expect("the queue after a reset", memcmp(&before, q, sizeof before) != 0, 0);
    for (struct bench *b = benches; b < benches + CHAINS; b++) {
        struct pk_stores stores;
        uint8_t front[PK_FRONT_MAX], notify;
        if (b->queue != q) continue;
        uint32_t end = b->pushing ? pk_pushed(&b->chain, q, 0, &notify)
                       : b->replied || b->fault
                           ? pk_push(&b->chain, q, front, sizeof front, &stores)
                           : pk_drop(&b->chain, q);
        expect("a chain from before a reset", end, PK_OTHER_QUEUE);
        pk_abandon(&b->chain);
        b->queue = NULL, b->pushing = false;
        check_state("the state of an abandoned handle", b);
    }
}

/* Device and queues are saved and restored, if no chain is in flight. */
static void do_move(void) {
    uint8_t record[32 + 32 * QUEUES];
    struct pk_device there = {device.page_size, device.limit, 0};
    struct pk_queue queue[QUEUES] = {0};
    size_t len, count;
    bool is_idle = true;
    for (size_t k = 0; k < QUEUES; k++) {
        is_idle = is_idle && in_flight(&queues[k]) == 0;
        queue[k].max_in_flight = queues[k].max_in_flight;
        queue[k].event_index = queues[k].event_index;
    }
    expect("a save", pk_save(&device, queues, QUEUES, record, sizeof record, &len),
           is_idle ? PK_DONE : PK_CHAIN_IN_FLIGHT);
    if (!is_idle) return;
    expect("a record's length", len, sizeof record);
    struct pk_device other = there;
    if (below(2))
        other.page_size = device.page_size == 4096 ? 65536 : device.page_size / 2;
    else
        other.limit = device.limit == PK_REQUEST_MAX ? device.limit + 1 : device.limit - 1;
    expect("another device", pk_restore(&other, queue, QUEUES, record, len, &count),
           PK_RECORD_MISMATCH);
    expect("a restore", pk_restore(&there, queue, QUEUES, record, len, &count), PK_DONE);
    expect("its queues", count, QUEUES);
    expect("its options", there.options, device.options);
    for (size_t k = 0; k < QUEUES; k++) {
        struct pk_queue wanted = queues[k];
        expect("another count", queue[k].reset_count == wanted.reset_count, 0);
        wanted.reset_count = queue[k].reset_count, wanted.pop_count = queue[k].pop_count;
        wanted.stopped = wanted.stopped ? 1 : 0;
        expect("a restored queue", memcmp(&wanted, &queue[k], sizeof wanted) != 0, 0);
    }
    memcpy(queues, queue, sizeof queues);
}

/* Pages of I/O addresses are mapped, or not any more. */
static void change_pages(uint64_t page, uint64_t count, bool is_mapped) {
    uint64_t at = base + page * PAGE, end = at + count * PAGE, to = below(PAGES + 2);
    uint32_t access = (uint32_t)ONE_OF(READS | WRITES, READS | WRITES, READS | WRITES,
                                       READS | WRITES, READS, WRITES, PK_ACCESS_NONE);
    uint64_t guest = guest_page(to), stop = guest + count * PAGE;
    uint32_t wanted = PK_DONE;
    if (is_mapped ? end <= at || stop <= guest : end < at && end != 0) wanted = PK_BAD_ARGUMENT;
    scarce_begin();
    uint32_t status = is_mapped ? pk_iotlb_map(&table, at, count * PAGE, guest, access)
                                : pk_iotlb_unmap(&table, at, count * PAGE);
    if (scarce_end()) {
        expect("a change without memory", status, PK_OUT_OF_MEMORY);
        if (below(2)) return;
        status = is_mapped ? pk_iotlb_map(&table, at, count * PAGE, guest, access)
                           : pk_iotlb_unmap(&table, at, count * PAGE);
    }
    expect(is_mapped ? "pk_iotlb_map" : "pk_iotlb_unmap", status, wanted);
    for (uint64_t k = 0; k < count && wanted == PK_DONE; k++)
        map_page(page + k, is_mapped, guest + k * PAGE, access);
}

/* Numbers that aren't of whole pages, none, ends past 2^64, and no access are refused. */
static void map_wrongly(void) {
    const uint64_t bad = 1 + below(PAGE - 1), far = UINT64_C(1) << (12 + below(52));
    const uint64_t at = base + below(8) * PAGE, end = 0 - at;
    const uint64_t rows[][3] = {
        {bad, PAGE, 0}, {0, PAGE + bad, 0},           {bad, PAGE - bad, 0}, {0, 0, 0},
        {0, bad, 0},    {0, end + PAGE, 0},           {PAGE, end, far},     {0, PAGE, bad},
        {0, end, 0},    {0, PAGE, 0 - (uint64_t)PAGE}};
    size_t k = below(10);
    const uint64_t *row = rows[k];
    if (at == 0 && k == 5) return; /* a length of one page */
    expect("a wrong map", pk_iotlb_map(&table, at + row[0], row[1], row[2], READS),
           PK_BAD_ARGUMENT);
    expect("no access", pk_iotlb_map(&table, at, PAGE, 0, 4 + (uint32_t)below(9)), PK_BAD_ARGUMENT);
    if (k >= 7 || (at == 0 && k == 6)) return; /* only the guest's address is wrong, or the end */
    expect("a wrong unmap", pk_iotlb_unmap(&table, at + row[0], row[1]), PK_BAD_ARGUMENT);
}

/* An empty table takes the place of one. */
static void clear_table(void) {
    expect("an empty table", pk_iotlb_new(&table), PK_DONE);
    for (uint64_t page = 0; page < IO_PAGES; page++) map_page(page, false, 0, 0);
    for (uint64_t page = 0; page < IO_PAGES; page += 4) change_pages(page, 4, below(8) != 0);
}

static void do_map(void) {
    if (has_iommu && below(4) == 0) map_wrongly();
    if (has_iommu && below(40) == 0) clear_table();
    uint64_t page = below(IO_PAGES), count = 1 + below(below(3) ? 3 : 10);
    if (count > IO_PAGES - page) count = IO_PAGES - page;
    if (has_iommu) change_pages(page, count, below(4) != 0);
}

/* ------------------------------------------------------------- handles */

/* A free handle gets its memory, in place of other memory or of none, and mostly its first ticket.
 * Its table goes. */
static void give_memory(struct bench *b) {
    struct pk_device other = device;
    struct pk_queue *q = &queues[0];
    struct pk_store store;
    other.limit = (uint32_t)ONE_OF(PK_REQUEST_MAX, device.limit, 0x80000000);
    if (below(2))
        expect("other memory", pk_chain_set_memory(&b->chain, &other, regions, below(2)), PK_DONE);
    if (has_iommu) exchange(b); /* a table that goes is the test's own one */
    if (has_iommu) exchange(b);
    scarce_begin();
    uint32_t status = pk_chain_set_memory(&b->chain, &device, regions, region_count);
    if (scarce_end()) {
        expect("memory without memory", status, PK_OUT_OF_MEMORY);
        status = pk_chain_set_memory(&b->chain, &device, regions, region_count);
    }
    expect("the memory", status, PK_DONE);
    if (has_iommu) {
        /* the addresses are the guest's until the handle has a table */
        has_iommu = false;
        bool is_there = !(q->event_index) && reaches(q->used, 2, WRITES);
        if (!q->event_index)
            expect("without a table", pk_set_notification(&b->chain, q, 1, &store),
                   is_there ? PK_DONE : PK_NOT_MAPPED);
        has_iommu = true;
        exchange(b);
        exchange(b);
    }
    uint32_t first = (uint32_t)ONE_OF(0, UINT32_MAX, chance());
    if (below(3) == 0) return;
    expect("a ticket", pk_chain_set_ticket(&b->chain, first), PK_DONE);
    b->ticket = first - 1, b->has_ticket = true;
}

/* ------------------------------------------------------------- worlds */

static void begin_queue(struct pk_queue *q) {
    uint64_t size = 1u << below(6), at;
    *q = (struct pk_queue){.size = (uint16_t)size};
    at = some_address(16 * size), q->desc = at / 16 * 16;
    at = some_address(6 + 2 * size), q->avail = at / 2 * 2;
    at = some_address(6 + 8 * size), q->used = at / 4 * 4;
    q->event_index = (uint8_t)below(2);
    q->max_in_flight = (uint16_t)below(size < 4 ? size + 1 : 4);
    bool is_bad = 16 * size > UINT64_MAX - q->desc || 6 + 2 * size > UINT64_MAX - q->avail ||
                  6 + 8 * size > UINT64_MAX - q->used;
    uint32_t status = pk_queue_begin(q, (uint16_t)ONE_OF(0, 0xfffe, 0xffff, chance()));
    expect("pk_queue_begin", status, is_bad ? PK_BAD_QUEUE_END : PK_DONE);
    if (is_bad) begin_queue(q);
}

static void begin_world(void) {
    lay_memory();
    device = (struct pk_device){4096u << below(5), 0, ONE_OF(0, 1, 0x400000001, 0x10000000001)};
    device.limit = (uint32_t)ONE_OF(PK_REQUEST_MAX, PK_REQUEST_MAX + 1, 0x123456, 0x80000000);
    if (has_iommu) expect("a table", pk_iotlb_new(&table), PK_DONE);
    for (uint64_t page = 0; has_iommu && page < IO_PAGES; page += 8)
        change_pages(page, 8, below(8) != 0);
    for (size_t k = 0; k < QUEUES; k++) begin_queue(&queues[k]);
    for (struct bench *b = benches; b < benches + CHAINS; b++) {
        *b = (struct bench){0};
        expect("no table", pk_chain_set_ticket(&b->chain, 1), PK_WRONG_ORDER);
        expect("its memory", pk_chain_set_memory(&b->chain, &device, regions, 0), PK_DONE);
        give_memory(b);
    }
}

static void end_world(void) {
    for (struct bench *b = benches; b < benches + CHAINS; b++) pk_chain_free(&b->chain);
    if (has_iommu) pk_iotlb_free(&table);
}

static void turn(void) {
    struct bench *b = &benches[below(CHAINS)];
    struct pk_queue *q = b->queue && below(20) ? b->queue : &queues[below(QUEUES)];
    switch (below(12)) {
    case 0: do_map(); break;
    case 1: do_drop(b, q); break;
    case 2: do_notification(b, q); break;
    case 3:
        if (below(4) == 0 || q->stopped || q->pushing) do_reset(q);
        break;
    case 4:
        do_move();
        if (!b->queue) give_memory(b);
        break;
    case 5: look(b); break;
    default:
        if (below(3)) offer(q);
        if (!b->queue) do_pop(b, q);
        look(b);
        if (below(4) && b->queue) do_reply(b);
        if (below(3)) do_push(b, q);
        if (below(8)) do_pushed(b, q);
    }
}

int main(int argc, char **argv) {
    unsigned long worlds = argc > 1 ? strtoul(argv[1], NULL, 10) : 5000;
    unsigned long seed = argc > 2 ? strtoul(argv[2], NULL, 10) : 1;
    for (; world < worlds; world++) {
        chance_begin(0x9e3779b97f4a7c15u * (seed + world));
        for (int k = 0; k < 8; k++) chance();
        begin_world();
        for (int k = 0; k < TURNS; k++) turn();
        end_world();
    }
    printf(
        "a plain model: %lu worlds, %lu chains popped, %lu with a fault, %lu misses, %lu pushed\n",
        world, popped, faulty, missed, pushed);
    return 0;
}
