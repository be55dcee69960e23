/* A clumsy author: calls of pitskhomu.h in any order, with random numbers, over a guest's random
 * memory.
 *     clumsy SECONDS
 * Pointers are valid for their lengths, as the header requires; nothing else is. Checked after each
 * call: the status has a name; loads, stores and data lie in the chain's regions; no buffer is
 * written beyond its end; a refusal changes no number. */
#include "../access.h"
#include "chance.h"
#include <stdio.h>
#include <stdlib.h>
#include <string.h>
#include <time.h>

enum {
    MEMORY_LEN = 1 << 18,
    SIZE = 16,
    CHAINS = 4,
    QUEUES = 2,
    TAIL = 64,
    REGIONS = 6,
    BUFFER = 3000
};
enum {
    DESC = 0,
    AVAIL = 0x1000,
    USED = 0x2000,
    TABLES = 0x3000,
    REQUESTS = 0x8000,
    ROOMS = 0x10000
};
#define FAR_AWAY (1ull << 40)

/* A chain with its regions, and its last results. */
struct bench {
    struct pk_chain chain;
    struct pk_region regions[REGIONS];
    size_t region_count, have;
    uint64_t request_len, room_len; /* of the chain in flight */
    bool replied;                   /* it has a reply of the author's own bytes, */
    uint64_t replied_len;           /* so many of them */
    uint32_t ticket;
    struct pk_pop_result step;
    struct pk_call call;
    uint8_t *request;
};

static uint8_t *memory;
static struct bench benches[CHAINS];
static struct pk_queue queues[QUEUES];
static struct pk_device device = PK_DEVICE;
static uint64_t calls, taken, asked, replied, returned;
static uint16_t at_once; /* the most chains that were in flight */

static _Noreturn void wrong(const char *what, uint64_t number) {
    fprintf(stderr, "FAILED: %s (%llu) after %llu calls\n", what, (unsigned long long)number,
            (unsigned long long)calls);
    abort();
}

static uint32_t named(uint32_t status) {
    calls++;
    if (!*pk_status_name(status)) wrong("a status has no name", status);
    return status;
}

/* ------------------------------------------------------------- buffers with a tail that stays */

static uint8_t buffer[BUFFER + TAIL];

static void begin_buffer(size_t len) { memset(buffer + len, 0xa5, TAIL); }

static void check_buffer(size_t len) {
    for (size_t k = 0; k < TAIL; k++)
        if (buffer[len + k] != 0xa5) wrong("a byte is written behind a buffer", k);
}

/* ------------------------------------------------------------- places */

/* Whether each byte lies in a region. Neighbours count as one. */
static bool is_told(const struct bench *b, uintptr_t at, uint64_t len) {
    for (size_t turn = 0; turn <= b->region_count && len > 0; turn++) {
        for (size_t k = 0; k < b->region_count; k++) {
            uint64_t offset = at - b->regions[k].host, left = b->regions[k].len - offset;
            if (at < b->regions[k].host || offset >= b->regions[k].len) continue;
            if (left >= len) return true;
            at += (uintptr_t)left;
            len -= left;
        }
    }
    return len == 0;
}

static void check_windows(const struct bench *b, const struct pk_window *windows, size_t count,
                          size_t most, uint64_t len) {
    uint64_t sum = 0;
    if (count > most) wrong("too many windows", count);
    for (size_t k = 0; k < count; k++) {
        if (windows[k].len == 0 || !is_told(b, windows[k].at, windows[k].len))
            wrong("a window lies outside", k);
        sum += windows[k].len;
    }
    if (sum > len) wrong("windows cover too much", sum);
}

/* ------------------------------------------------------------- the guest, by chance */

static void put(uint64_t at, uint64_t value, size_t len) { memcpy(memory + at, &value, len); }

static void descriptor(uint64_t table, unsigned k, uint64_t addr, uint64_t len, uint64_t flags,
                       uint64_t next) {
    uint64_t at = table + 16 * (uint64_t)k;
    if (at + 16 > MEMORY_LEN) return;
    put(at, addr, 8), put(at + 8, len, 4), put(at + 12, flags, 2), put(at + 14, next, 2);
}

static uint64_t some_address(void) {
    return ONE_OF(below(MEMORY_LEN), ROOMS + below(0x8000), REQUESTS + below(0x8000),
                  MEMORY_LEN - below(64), FAR_AWAY + below(8192), UINT64_MAX - below(64),
                  TABLES + below(0x3000));
}

static void some_chain(unsigned head) {
    uint64_t at = REQUESTS + 0x200 * below(32), table = DESC;
    unsigned k = head, parts = (unsigned)below(5);
    size_t len = some_request(memory + at);
    if (below(2)) {
        table = TABLES + 0x100 * below(32) + (below(8) ? 0 : below(16));
        descriptor(DESC, head, table, below(8) ? 16 * (1 + (uint64_t)parts) : below(500), 4, 0);
        k = 0;
    }
    descriptor(table, k, at, len, parts ? 1 : 0, k + 1);
    for (unsigned n = 1; n <= parts; n++)
        descriptor(table, k + n, below(6) ? ROOMS + 0x1000 * below(40) : some_address(),
                   ONE_OF(16, 64, 128, 144, 4096, 0, below(90000)), n < parts ? 3 : 2, k + n + 1);
    if (below(6) == 0)
        descriptor(table, (unsigned)below(20), some_address(), below(5000), below(8), below(20));
}

static uint16_t available(void) {
    uint16_t value;
    memcpy(&value, memory + AVAIL + 2, 2);
    return value;
}

static void stir_guest(const struct pk_queue *queue) {
    unsigned head = (unsigned)below(SIZE);
    some_chain(head);
    put(AVAIL + 4 + 2u * (available() % SIZE), below(60) ? head : below(40), 2);
    uint16_t behind = (uint16_t)(available() - queue->next_avail);
    if (behind < SIZE || below(100) == 0) put(AVAIL + 2, available() + 1u, 2);
    if (below(300) == 0) put(AVAIL + 2, chance(), 2);
}

/* ------------------------------------------------------------- numbers that are lent */

static void some_queue(struct pk_queue *queue) {
    uint16_t position = below(6) ? available() : (uint16_t)chance();
    queue->desc = below(6) ? DESC : some_address();
    queue->avail = below(6) ? AVAIL : some_address();
    queue->used = below(6) ? USED : some_address();
    queue->size = below(6) ? SIZE : (uint16_t)ONE_OF(0, 1, 3, 32768, chance());
    queue->max_in_flight = below(9) ? (uint16_t)below(CHAINS + 1) : (uint16_t)chance();
    queue->event_index = (uint8_t)(below(9) ? below(2) : chance());
    struct pk_queue before = *queue;
    uint32_t status = named(pk_queue_begin(queue, position));
    if (status != PK_DONE && memcmp(&before, queue, sizeof before) != 0)
        wrong("a queue that isn't begun is another", status);
    if (status == PK_DONE && (queue->next_avail != position || queue->next_used != position ||
                              queue->reset_count == before.reset_count))
        wrong("a queue begins elsewhere", queue->next_avail);
    if (below(9)) return;
    switch (below(5)) {
    case 0: queue->next_avail = (uint16_t)chance(); break;
    case 1: queue->next_used = (uint16_t)(queue->next_avail - below(4)); break;
    case 2: queue->stopped = (uint16_t)below(12); break;
    case 3: queue->pushing = (uint8_t)below(3); break;
    default: queue->pop_count = (uint32_t)chance();
    }
}

/* Regions over the memory, some with a second one far away for the guest, or with numbers that
 * aren't allowed. */
static void tell_memory(struct bench *b) {
    struct pk_region regions[REGIONS] = {{0, MEMORY_LEN, (uintptr_t)memory}};
    size_t count = 1 + below(3);
    uintptr_t host = (uintptr_t)memory;
    if (below(2)) {
        regions[0].len = MEMORY_LEN / 2;
        regions[1] = (struct pk_region){MEMORY_LEN / 2, MEMORY_LEN / 2, host + MEMORY_LEN / 2};
    } else {
        regions[1] = (struct pk_region){FAR_AWAY, 4096 * (1 + below(2)), host + 4096 * below(8)};
    }
    regions[2] = (struct pk_region){UINT64_MAX - 4095, 4096, host + 4096 * below(8)};
    if (below(20) == 0) regions[below(3)].len = ONE_OF(0, 4095, UINT64_MAX, chance());
    if (below(20) == 0) regions[below(3)].guest = ONE_OF(0, 1, 4096, UINT64_MAX, chance());
    if (below(30) == 0) count = ONE_OF(0, 65, 3);
    if (count > REGIONS) return;
    struct pk_device lent = device;
    if (below(30) == 0) lent.limit = (uint32_t)ONE_OF(0, 0x100fff, 1u << 31, chance());
    uint32_t status = named(pk_chain_set_memory(&b->chain, &lent, regions, count));
    if (status == PK_DONE) {
        memcpy(b->regions, regions, sizeof regions);
        b->region_count = count;
    }
}

/* ------------------------------------------------------------- calls */

static uint16_t out_of(const struct pk_queue *queue) {
    return (uint16_t)(queue->next_avail - queue->next_used);
}

/* A status that means that nothing was done leaves the numbers as they were. */
static void check_same(uint32_t status, const struct pk_queue *before,
                       const struct pk_queue *after) {
    if (status >= 64 && memcmp(before, after, sizeof *before) != 0)
        wrong("a refusal changes a queue", status);
}

static uint32_t do_walk(struct bench *b, struct pk_queue *queue) {
    static uint8_t bytes[PK_LOAD_MAX];
    size_t len = below(30) ? b->step.load_len : (size_t)ONE_OF(16, below(PK_LOAD_MAX + 1));
    struct pk_queue before = *queue;
    struct pk_pop_result step;
    if (len == b->step.load_len && len > 0 && is_told(b, b->step.load_at, len))
        memcpy(bytes, (const void *)b->step.load_at, len);
    if (below(500) == 0)
        for (size_t k = 0; k < len; k++) bytes[k] = (uint8_t)chance();
    uint32_t status = named(pk_pop(&b->chain, queue, bytes, len, &step));
    check_same(status, &before, queue);
    if (status != PK_BAD_ARGUMENT) b->step = step; /* else the load is still needed */
    if (status == PK_LOAD && (b->step.load_len == 0 || b->step.load_len > PK_LOAD_MAX ||
                              !is_told(b, b->step.load_at, b->step.load_len)))
        wrong("a load lies outside", b->step.load_len);
    if (status != PK_DONE) return status;
    if (queue->next_avail != (uint16_t)(before.next_avail + 1) ||
        queue->next_used != before.next_used)
        wrong("a chain is taken elsewhere", queue->next_avail);
    if (out_of(queue) > (queue->max_in_flight ? queue->max_in_flight : 1))
        wrong("too many chains are out", out_of(queue));
    if (out_of(queue) > at_once) at_once = out_of(queue);
    taken++;
    b->have = 0;
    b->replied = false;
    b->request_len = b->step.request_len;
    b->room_len = b->step.reply_len;
    b->ticket = b->step.ticket;
    return status;
}

/* No load follows it. */
static void do_drop(struct bench *b, struct pk_queue *queue) {
    struct pk_queue before = *queue;
    uint16_t out = out_of(queue);
    uint32_t status = named(pk_drop(&b->chain, queue));
    check_same(status, &before, queue);
    if (status == PK_DONE && memcmp(&before, queue, sizeof before) != 0 && out_of(queue) != out - 1)
        wrong("a chain is dropped elsewhere", out_of(queue));
    b->step = (struct pk_pop_result){0};
}

static void do_abandon(struct bench *b) {
    pk_abandon(&b->chain);
    b->step = (struct pk_pop_result){0};
    calls++;
}

/* Pops until there is a chain or none. Now and then it ends what prevents the pop. */
static void walk_on(struct bench *b, struct pk_queue *queue) {
    uint32_t status;
    while ((status = do_walk(b, queue)) == PK_LOAD) {}
    if (status == PK_DONE || status == PK_IDLE || below(3) > 0) return;
    for (size_t k = 0; k < QUEUES; k++) do_drop(b, &queues[k]);
    if (below(4) == 0) do_abandon(b);
    if (below(8) == 0) some_queue(queue);
    if (b->region_count == 0) tell_memory(b);
}

static void do_ask(struct bench *b) {
    size_t want = (size_t)(b->request_len < PK_FIRST ? b->request_len : PK_FIRST);
    if (b->call.needed > want && b->have > 0) want = b->call.needed;
    if (below(20) == 0) want = below(4096);
    if (want > PK_REQUEST_MAX) return;
    gather(&b->chain, 0, b->request, want);
    b->have = want;
    uint32_t status = named(pk_decode(&b->chain, &device, b->request, want, &b->call));
    if (status == PK_DONE) asked++;
    if (status == PK_DONE && b->call.ticket != b->ticket)
        wrong("a call has another ticket", b->call.ticket);
    const struct pk_span *spans[] = {&b->call.name, &b->call.name2, &b->call.value};
    for (size_t k = 0; k < 3; k++)
        if ((uint64_t)spans[k]->at + spans[k]->len > want)
            wrong("a span lies behind the request", k);
    if (b->call.name.len && b->request[b->call.name.at + b->call.name.len])
        wrong("a name has no zero byte behind it", b->call.kind);
    if (b->call.kind == PK_CALL_BATCH_FORGET && 16 * b->call.count > b->call.value.len)
        wrong("pairs lie behind the request", b->call.count);
    if (b->call.answer == PK_ANSWER_DATA && b->call.data_len > b->room_len)
        wrong("data is longer than the room", b->call.data_len);
}

/* Whether a range of guest addresses lies in the chain's regions. */
static bool is_guests(const struct bench *b, uint64_t guest, uint64_t len) {
    for (size_t turn = 0; turn <= b->region_count && len > 0; turn++) {
        for (size_t k = 0; k < b->region_count; k++) {
            uint64_t offset = guest - b->regions[k].guest, left = b->regions[k].len - offset;
            if (guest < b->regions[k].guest || offset >= b->regions[k].len) continue;
            if (left >= len) return true;
            guest += left;
            len -= left;
        }
    }
    return len == 0;
}

static void check_ranges(const struct bench *b, const struct pk_range *ranges, size_t count,
                         size_t most, uint64_t len) {
    uint64_t sum = 0;
    if (count > most) wrong("too many ranges", count);
    for (size_t k = 0; k < count; k++) {
        if (ranges[k].len == 0 || !is_guests(b, ranges[k].guest, ranges[k].len))
            wrong("a range lies outside", k);
        sum += ranges[k].len;
    }
    if (sum > len) wrong("ranges cover too much", sum);
}

static void do_windows(struct bench *b) {
    struct pk_window windows[5];
    struct pk_range ranges[5];
    uint64_t from = ONE_OF(0, 16, below(5000), chance()),
             len = ONE_OF(1, 16, below(100000), UINT64_MAX);
    size_t most = below(6), count;
    count = pk_request_windows(&b->chain, from, len, windows, most);
    check_windows(b, windows, count, most, len);
    count = pk_reply_windows(&b->chain, from, len, windows, most);
    check_windows(b, windows, count, most, len);
    count = pk_reply_ranges(&b->chain, from, len, ranges, most);
    check_ranges(b, ranges, count, most, len);
    calls += 3;
}

/* The chain's ticket, or an old one. */
static uint32_t some_ticket(const struct bench *b) {
    return below(30) ? b->ticket : (uint32_t)ONE_OF(b->ticket - 1, b->ticket + 1, 0, chance());
}

/* An answer with another ticket than the chain's is refused for that, and one with its ticket
 * isn't. */
static void check_ticket(const struct bench *b, uint32_t ticket, uint32_t status) {
    bool is_mine = ticket == b->ticket;
    if (is_mine ? status == PK_OTHER_CALL
                : status != PK_OTHER_CALL && status != PK_WRONG_ORDER && status != PK_BAD_ARGUMENT)
        wrong("a ticket is taken for another one", status);
}

static struct pk_entry some_entry(void) {
    struct pk_entry entry = {
        .node = below(3), .entry_secs = 1, .attr = {.ino = 7, .mode = 0100644}};
    if (below(10) == 0) entry.entry_nanos = (uint32_t)chance();
    return entry;
}

static uint32_t do_entries(struct bench *b, uint32_t ticket) {
    struct pk_entry entry = some_entry();
    size_t len = below(BUFFER), name_len = below(300);
    uint32_t status = PK_WRONG_ORDER;
    uint64_t listed;
    uint8_t name[300];
    memset(name, 'n', sizeof name);
    begin_buffer(len);
    for (uint64_t k = below(6); k > 0; k--) {
        check_ticket(
            b, ticket,
            named(pk_add_direntry(&b->chain, ticket, buffer, len, name, name_len, 7, k, 8)));
        check_ticket(
            b, ticket,
            named(pk_add_direntry_plus(&b->chain, ticket, buffer, len, name, name_len, &entry, k)));
    }
    check_buffer(len);
    if (below(2) == 0) {
        status = named(pk_reply_entries(&b->chain, ticket, &listed));
        if (listed > b->room_len) wrong("a list is longer than the room", listed);
    }
    return status;
}

/* The answer that the call needs, or another one. */
static void do_reply(struct bench *b) {
    struct pk_entry entry = some_entry();
    struct pk_attr attr = {.ino = 1};
    struct pk_statfs statfs = {.bsize = 4096};
    struct pk_chain *chain = &b->chain;
    uint32_t ticket = some_ticket(b), status;
    switch (below(3) ? b->call.answer : below(14)) {
    case PK_ANSWER_DONE: status = pk_reply_err(chain, ticket, 0); break;
    case PK_ANSWER_ENTRY: status = pk_reply_entry(chain, ticket, &entry); break;
    case PK_ANSWER_ATTR:
        status = pk_reply_attr(chain, ticket, &attr, 1,
                               (uint32_t)ONE_OF(0, 999999999, 1000000000, chance()));
        break;
    case PK_ANSWER_OPEN: status = pk_reply_open(chain, ticket, chance(), 0); break;
    case PK_ANSWER_CREATE: status = pk_reply_create(chain, ticket, &entry, chance(), 0); break;
    case PK_ANSWER_DATA:
        status = pk_reply_data(chain, ticket, below(4) ? below(b->call.data_len + 1) : chance());
        break;
    case PK_ANSWER_XATTR: status = pk_reply_xattr(chain, ticket, (uint32_t)chance()); break;
    case PK_ANSWER_STATFS: status = pk_reply_statfs(chain, ticket, &statfs); break;
    case PK_ANSWER_WRITE:
        status = pk_reply_write(chain, ticket,
                                (uint32_t)(below(4) ? below(b->call.size + 1) : chance()));
        break;
    case PK_ANSWER_LSEEK: status = pk_reply_lseek(chain, ticket, chance()); break;
    case PK_ANSWER_ENTRIES: status = do_entries(b, ticket); break;
    case PK_ANSWER_INIT: status = pk_reply_init(chain, ticket, &device, chance()); break;
    default:
        status = pk_reply_err(chain, ticket, (uint32_t)ONE_OF(2, 38, 4095, 4096, 0, chance()));
        break;
    }
    check_ticket(b, ticket, named(status));
}

/* A reply of the author's own bytes: in place of pk_decode or of an answer, after one, or of a
 * chain that isn't in flight. */
static void do_bytes(struct bench *b) {
    uint64_t room = b->room_len, none;
    uint64_t len = ONE_OF(0, PK_HEADER, below(room + 1), room, room + 1, room + below(100),
                          UINT32_MAX, chance());
    uint32_t ticket = some_ticket(b), status = named(pk_reply_bytes(&b->chain, ticket, len));
    check_ticket(b, ticket, status);
    if (status == PK_LONG_REPLY
            ? len <= room
            : status != PK_DONE && status != PK_WRONG_ORDER && status != PK_OTHER_CALL)
        wrong("bytes are refused otherwise", status);
    if (status != PK_DONE) return;
    if (len > room) wrong("bytes are longer than the room", len);
    if (b->replied) wrong("bytes are taken twice", len);
    b->replied = true;
    b->replied_len = len;
    replied++;
    memset(buffer, 'b', BUFFER);
    scatter(&b->chain, 0, buffer, len < BUFFER ? (size_t)len : BUFFER);
    if (named(pk_reply_bytes(&b->chain, ticket, 0)) != PK_WRONG_ORDER ||
        named(pk_reply_err(&b->chain, ticket, 0)) != PK_WRONG_ORDER ||
        named(pk_reply_entries(&b->chain, ticket, &none)) != PK_WRONG_ORDER)
        wrong("a chain has two replies", len);
}

/* A chain is pushed at `next_used`, in any order of the pops. */
static void check_stores(const struct bench *b, const struct pk_queue *queue,
                         const struct pk_stores *stores) {
    uint64_t element = queue->used + 4 + 8 * (uint64_t)(queue->next_used & (queue->size - 1u));
    if (!is_told(b, stores->id_at, 4) || !is_told(b, stores->len_at, 4) ||
        !is_told(b, stores->index_at, 2) || !is_told(b, stores->seen_at, 2))
        wrong("a store lies outside", element);
    if (stores->len_at - stores->id_at != 4 && b->region_count == 1)
        wrong("the element's halves lie apart", element);
    if (stores->index != (uint16_t)(queue->next_used + 1)) wrong("another index", stores->index);
    if (stores->element_guest != element || stores->index_guest != queue->used + 2)
        wrong("another guest address", stores->element_guest);
    if (stores->front_len > stores->len || stores->len > b->room_len)
        wrong("the reply is longer than the room", stores->len);
    if (b->replied && (stores->front_len || stores->len != b->replied_len))
        wrong("other bytes go back", stores->len);
}

static void do_returned(struct bench *b, struct pk_queue *queue) {
    struct pk_queue before = *queue;
    uint8_t notify;
    uint32_t status = named(pk_pushed(&b->chain, queue, (uint16_t)chance(), &notify));
    check_same(status, &before, queue);
    if (notify > 1) wrong("neither 0 nor 1", notify);
    if (status != PK_DONE) return;
    if (queue->next_used != (uint16_t)(before.next_used + 1) ||
        queue->next_avail != before.next_avail)
        wrong("a chain goes back elsewhere", queue->next_used);
    returned++;
}

static void do_return(struct bench *b, struct pk_queue *queue) {
    struct pk_stores stores;
    struct pk_queue before = *queue;
    size_t len = below(20) ? PK_FRONT_MAX : below(PK_FRONT_MAX);
    begin_buffer(len);
    uint32_t status = named(pk_push(&b->chain, queue, buffer, len, &stores));
    check_buffer(len);
    if (status == PK_NOT_MAPPED) before.pushing = 1; /* the push is under way then */
    check_same(status, &before, queue);
    if (status == PK_DONE) {
        check_stores(b, queue, &stores);
        scatter(&b->chain, 0, buffer, stores.front_len);
    }
    if (below(10) == 0) do_drop(b, queue);
    if (below(20) == 0) return;
    do_returned(b, &queues[below(QUEUES)]);
    do_returned(b, queue);
}

/* Enables or disables the driver's notifications. */
static void do_kicks(struct bench *b, const struct pk_queue *queue) {
    struct pk_store store;
    uint32_t wanted = (uint32_t)(below(9) ? below(2) : chance()),
             status = named(pk_set_notification(&b->chain, queue, wanted, &store));
    if (status != PK_DONE) return;
    if (store.len != 2 && (store.len != 0 || wanted || !queue->event_index))
        wrong("another length", store.len);
    if (store.len && !is_told(b, store.at, 2)) wrong("a store lies outside", store.at);
    if (store.len && store.value != (queue->event_index ? queue->next_avail : !wanted))
        wrong("another value", store.value);
}

/* A record is written and read again, sometimes cut, with other bytes in it, or into too few
 * queues. */
static void do_move(void) {
    struct pk_device lent = device;
    struct pk_queue there[QUEUES];
    size_t room = below(4) ? 32 + 32 * QUEUES : below(200), len, count;
    if (below(20) == 0) lent.page_size = (uint32_t)ONE_OF(0, 4095, 8192, chance());
    if (below(20) == 0) lent.options = chance();
    begin_buffer(room);
    uint32_t status =
        named(pk_save(&lent, queues, below(6) ? QUEUES : below(QUEUES), buffer, room, &len));
    check_buffer(room);
    if (status == PK_DONE ? len > room : len > 0 && status != PK_SHORT_BUFFER)
        wrong("a record's length", len);
    if (status != PK_DONE) return;
    for (uint64_t k = below(3); k > 0; k--) buffer[below(len)] = (uint8_t)chance();
    if (below(6) == 0) len = below(len + 1);
    memcpy(there, queues, sizeof there);
    struct pk_device before = lent;
    status =
        named(pk_restore(&lent, there, below(6) ? QUEUES : below(QUEUES), buffer, len, &count));
    if (status == PK_DONE ? count > QUEUES
                          : memcmp(there, queues, sizeof there) || lent.options != before.options)
        wrong("a refused record changes numbers", status);
}

/* One call, or a chain's calls in their order with slips among them. */
static void stumble(void) {
    struct bench *b = &benches[below(CHAINS)];
    struct pk_queue *queue = &queues[below(QUEUES)];
    stir_guest(queue);
    switch (below(40)) {
    case 0: tell_memory(b); break;
    case 1:
        if (below(8) == 0) some_queue(queue);
        break;
    case 2: do_windows(b); break;
    case 3: do_drop(b, queue); break;
    case 4:
        if (below(20) == 0) pk_chain_free(&b->chain), b->region_count = 0;
        break;
    case 5: do_reply(b); break;
    case 6: (void)do_walk(b, queue); break;
    case 7: do_ask(b); break;
    case 8: do_return(b, queue); break;
    case 9: do_move(); break;
    case 10: do_bytes(b); break;
    case 11:
        if (below(8) == 0) do_abandon(b);
        break;
    case 12: walk_on(b, queue); break; /* it stays in flight for a while */
    case 13: do_kicks(b, queue); break;
    default:
        walk_on(b, queue);
        if (below(12) == 0) do_bytes(b);
        for (int k = 0; k < 3; k++) do_ask(b);
        if (below(8) == 0) do_windows(b);
        if (below(12) == 0) do_bytes(b);
        do_reply(b);
        do_reply(b);
        if (below(12) == 0) do_bytes(b);
        do_return(b, queue);
    }
}

int main(int argc, char **argv) {
    if (argc < 2) return fprintf(stderr, "usage: clumsy SECONDS\n"), 2;
    time_t end = time(NULL) + (time_t)strtoul(argv[1], NULL, 10);
    chance_begin((uint64_t)end * 0x9e3779b97f4a7c15u | 1);
    memory = aligned_alloc(4096, MEMORY_LEN);
    if (!memory) return 1;
    memset(memory, 0, MEMORY_LEN);
    for (size_t k = 0; k < CHAINS; k++)
        if (!(benches[k].request = malloc(PK_REQUEST_MAX))) return 1;
    for (size_t k = 0; k < QUEUES; k++) some_queue(&queues[k]);
    while (calls % 1024 > 40 || time(NULL) < end) stumble();
    for (size_t k = 0; k < CHAINS; k++) pk_chain_free(&benches[k].chain), free(benches[k].request);
    free(memory);
    printf("clumsy author: %llu calls, %llu chains popped, up to %u in flight, %llu decoded, %llu "
           "replied with bytes, %llu pushed\n",
           (unsigned long long)calls, (unsigned long long)taken, at_once, (unsigned long long)asked,
           (unsigned long long)replied, (unsigned long long)returned);
    return 0;
}
