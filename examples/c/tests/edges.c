/* What the header says of late answers, of a queue's chains and of a restored queue's numbers, also
 * if the guest gives two queues the same addresses. The first entry of a listing that doesn't fit.
 * The longest load of a pop. */
#include <errno.h>
#include <pitskhomu.h>
#include <stdio.h>
#include <stdlib.h>
#include <string.h>

enum { SIZE = 8, DESC = 0, AVAIL = 0x1000, USED = 0x2000, NEXT = 0x3000 }; /* of the first queue */
enum { REQUEST = 0x6000, REPLY = 0x7000, TABLE = 0x8000, MEMORY = 0xa000 };
enum { LONG = 512, LONG_AVAIL = 0x2000, LONG_USED = 0x3000 }; /* a longer queue's, from 0 on */
enum { GETATTR = 3, READDIR = 28 };                            /* opcodes of linux/fuse.h */
enum { FOLLOWED = 1, WRITE = 2, INDIRECT = 4 };                /* flags of a descriptor */
enum { PAIR = 2, HANDLES = 1000 };

static _Alignas(4096) uint8_t memory[MEMORY]; /* the guest's, from its address 0 on */
static const struct pk_region region = {.guest = 0, .len = MEMORY, .host = (uintptr_t)memory};
static struct pk_device device = PK_DEVICE;
static struct pk_queue queues[PAIR];
static size_t longest_load;

static void expect(const char *what, uint64_t found, uint64_t wanted) {
    if (found == wanted) return;
    fprintf(stderr, "FAILED: %s: %llu, and not %llu\n", what, (unsigned long long)found,
            (unsigned long long)wanted);
    exit(1);
}

static void put(size_t at, uint64_t value, size_t len) { memcpy(memory + at, &value, len); }

static void describe(size_t at, uint64_t addr, uint32_t len, uint16_t flags, uint16_t next) {
    put(at, addr, 8);
    put(at + 8, len, 4);
    put(at + 12, flags, 2);
    put(at + 14, next, 2);
}

/* Two queues at a distance: with 0 both have the same addresses. They are zeros before. */
static void lay_out(uint64_t apart) {
    for (unsigned k = 0; k < PAIR; k++)
        queues[k] = (struct pk_queue){.desc = DESC + k * apart,
                                      .avail = AVAIL + k * apart,
                                      .used = USED + k * apart,
                                      .size = SIZE,
                                      .max_in_flight = 4};
    memset(memory, 0, MEMORY);
}

static void begin_both(uint64_t apart) {
    lay_out(apart);
    for (unsigned k = 0; k < PAIR; k++)
        expect("a queue begins", pk_queue_begin(&queues[k], 0), PK_DONE);
}

/* The driver makes one more chain available in a queue: a request, and a reply buffer. */
static void offer(const struct pk_queue *queue, uint32_t opcode, uint32_t len, uint32_t room) {
    uint16_t index;
    memcpy(&index, memory + queue->avail + 2, 2);
    memset(memory + REQUEST, 0, 80);
    put(REQUEST, len, 4);
    put(REQUEST + 4, opcode, 4);
    put(REQUEST + 16, 1, 8);
    put(REQUEST + 56, 0x80, 4); /* the size of a READDIR */
    describe(queue->desc, REQUEST, len, FOLLOWED, 1);
    describe(queue->desc + 16, REPLY, room, WRITE, 0);
    put(queue->avail + 4 + 2 * (index % SIZE), 0, 2);
    put(queue->avail + 2, index + 1u, 2);
}

static uint32_t pop(struct pk_chain *chain, struct pk_queue *queue, struct pk_pop_result *step) {
    static uint8_t bytes[PK_LOAD_MAX]; /* with a sanitizer a longer load is a fault */
    uint32_t status;
    memset(step, 0, sizeof *step);
    while ((status = pk_pop(chain, queue, bytes, step->load_len, step)) == PK_LOAD) {
        if (step->load_len > longest_load) longest_load = step->load_len;
        if (step->load_len > sizeof bytes) expect("a load", step->load_len, sizeof bytes);
        memcpy(bytes, (const void *)step->load_at, step->load_len);
    }
    return status;
}

/* A handle that has popped and decoded a request of a queue. Returns its ticket. */
static uint32_t ask(struct pk_chain *chain, struct pk_queue *queue) {
    struct pk_pop_result step;
    struct pk_call call;
    offer(queue, GETATTR, 56, 0x100);
    expect("the memory", pk_chain_set_memory(chain, &device, &region, 1), PK_DONE);
    expect("the pop", pop(chain, queue, &step), PK_DONE);
    expect("its request", pk_decode(chain, &device, memory + REQUEST, 56, &call), PK_DONE);
    expect("its ticket", call.ticket, step.ticket);
    return step.ticket;
}

static uint32_t push(struct pk_chain *chain, struct pk_queue *queue) {
    uint8_t front[PK_FRONT_MAX], notify;
    struct pk_stores stores;
    uint32_t status = pk_push(chain, queue, front, sizeof front, &stores);
    return status ? status : pk_pushed(chain, queue, 0, &notify);
}

/* An answer with another ticket is refused, and one with the chain's is taken. */
static void answers(const char *what, struct pk_chain *chain, uint32_t late, uint32_t own) {
    expect(what, pk_reply_err(chain, late, EIO), PK_OTHER_CALL);
    expect(what, pk_reply_bytes(chain, late, 0), PK_OTHER_CALL);
    expect(what, pk_reply_err(chain, own, ENOENT), PK_DONE);
}

/* An answer to a chain whose handle was freed isn't taken by a new handle in the same place. */
static void after_a_free(void) {
    struct pk_chain chain = {0};
    begin_both(NEXT);
    uint32_t late = ask(&chain, &queues[0]);
    pk_chain_free(&chain);
    uint32_t own = ask(&chain, &queues[0]);
    answers("an answer to a chain that was freed", &chain, late, own);
    pk_chain_free(&chain);
}

/* Nor by another handle, of the same queue or of another one. */
static void by_another_handle(unsigned k, uint64_t apart) {
    struct pk_chain one = {0}, other = {0};
    begin_both(apart);
    uint32_t first = ask(&one, &queues[0]), second = ask(&other, &queues[k]);
    answers("an answer to another handle's chain", &one, second, first);
    answers("an answer to another handle's chain", &other, first, second);
    pk_chain_free(&one);
    pk_chain_free(&other);
}

/* Nor after a reset, by the same handle. */
static void after_a_reset(void) {
    struct pk_chain chain = {0};
    begin_both(NEXT);
    uint32_t late = ask(&chain, &queues[0]);
    pk_abandon(&chain);
    begin_both(NEXT);
    uint32_t own = ask(&chain, &queues[1]);
    answers("an answer from before a reset", &chain, late, own);
    pk_chain_free(&chain);
}

static int ascending(const void *a, const void *b) {
    uint32_t x = *(const uint32_t *)a, y = *(const uint32_t *)b;
    return (x > y) - (x < y);
}

/* Of many handles no two have near tickets, however often a guest resets meanwhile: none gets
 * another's in its first million chains. 10946 is a number of Fibonacci's: tickets by one count of
 * handles and resets would be near. */
static void far_apart(void) {
    static uint32_t tickets[HANDLES];
    begin_both(NEXT);
    for (size_t k = 0; k < HANDLES; k++) {
        struct pk_chain chain = {0};
        for (unsigned resets = k < 10 ? 10946 - 1 : 1; resets > 0; resets--)
            expect("a reset", pk_queue_begin(&queues[0], 0), PK_DONE);
        put(AVAIL + 2, 0, 2);
        tickets[k] = ask(&chain, &queues[0]);
        pk_chain_free(&chain);
    }
    qsort(tickets, HANDLES, sizeof *tickets, ascending);
    for (size_t k = 1; k < HANDLES; k++)
        expect("tickets that are near", tickets[k] - tickets[k - 1] < 1000000, 0);
}

/* A chain isn't another queue's, though the guest gave both the same addresses. */
static void is_no_other_queues(const char *what) {
    struct pk_chain chain = {0};
    uint32_t own = ask(&chain, &queues[0]);
    expect(what, pk_reply_err(&chain, own, EIO), PK_DONE);
    queues[1].next_avail++; /* it has a chain in flight, too */
    queues[1].pop_count++;
    expect(what, push(&chain, &queues[1]), PK_OTHER_QUEUE);
    expect(what, push(&chain, &queues[0]), PK_DONE);
    pk_chain_free(&chain);
}

static void with_equal_addresses(void) {
    uint8_t record[32 + 32 * PAIR];
    size_t len, count = 0;
    begin_both(0);
    is_no_other_queues("a chain of another queue with the same addresses");
    begin_both(0);
    expect("the save", pk_save(&device, queues, PAIR, record, sizeof record, &len), PK_DONE);
    lay_out(0);
    expect("the restore", pk_restore(&device, queues, PAIR, record, len, &count), PK_DONE);
    expect("its queues", count, PAIR);
    is_no_other_queues("a chain of another queue that was restored");
}

/* A queue that was never begun isn't popped, and nothing changes. */
static void never_begun(void) {
    struct pk_chain chain = {0};
    struct pk_pop_result step;
    lay_out(NEXT);
    offer(&queues[0], GETATTR, 56, 0x100);
    struct pk_queue before = queues[0];
    expect("the memory", pk_chain_set_memory(&chain, &device, &region, 1), PK_DONE);
    expect("the pop", pop(&chain, &queues[0], &step), PK_QUEUE_NOT_BEGUN);
    expect("its load", step.load_at | step.load_len, 0);
    expect("the queue", (uint64_t)memcmp(&before, &queues[0], sizeof before), 0);
    expect("the handle", pk_chain_state(&chain), PK_STATE_FREE);
    expect("a queue begins", pk_queue_begin(&queues[0], 0), PK_DONE);
    expect("the pop", pop(&chain, &queues[0], &step), PK_DONE);
    pk_chain_free(&chain);
}

/* pk_restore refuses what pk_queue_begin does, and changes nothing. */
static void restores_valid_queues(void) {
    static const struct {
        uint16_t max_in_flight;
        uint8_t event_index;
        uint32_t status;
    } rows[] = {{SIZE + 1, 0, PK_BAD_MAX_IN_FLIGHT}, {100, 1, PK_BAD_MAX_IN_FLIGHT},
                {4, 2, PK_BAD_EVENT_INDEX},          {0xffff, 3, PK_BAD_MAX_IN_FLIGHT},
                {4, 3, PK_BAD_EVENT_INDEX},          {4, 9, PK_BAD_EVENT_INDEX},
                {SIZE, 1, PK_DONE},                  {0, 0, PK_DONE},
                {1, 1, PK_DONE}};
    uint8_t record[32 + 32 * PAIR];
    size_t len, count;
    begin_both(NEXT);
    expect("the save", pk_save(&device, queues, PAIR, record, sizeof record, &len), PK_DONE);
    for (size_t k = 0; k < sizeof rows / sizeof *rows; k++) {
        lay_out(NEXT);
        queues[1].max_in_flight = rows[k].max_in_flight;
        queues[1].event_index = rows[k].event_index;
        struct pk_queue begun = queues[1], before[PAIR];
        struct pk_device there = PK_DEVICE, as_it_was;
        memcpy(before, queues, sizeof before);
        memcpy(&as_it_was, &there, sizeof there);
        expect("pk_queue_begin", pk_queue_begin(&begun, 0), rows[k].status);
        count = 7;
        expect("pk_restore", pk_restore(&there, queues, PAIR, record, len, &count),
               rows[k].status);
        expect("its queues", count, rows[k].status ? 0 : PAIR);
        if (rows[k].status == PK_DONE) continue;
        expect("the queues", (uint64_t)memcmp(before, queues, sizeof before), 0);
        expect("the device", (uint64_t)memcmp(&as_it_was, &there, sizeof there), 0);
    }
}

/* The driver asks for the entries of a directory, of 0x80 bytes at most. */
static uint32_t ask_entries(struct pk_chain *chain) {
    struct pk_pop_result step;
    struct pk_call call;
    begin_both(NEXT);
    expect("the memory", pk_chain_set_memory(chain, &device, &region, 1), PK_DONE);
    offer(&queues[0], READDIR, 80, 0x100);
    expect("the pop", pop(chain, &queues[0], &step), PK_DONE);
    expect("the request", pk_decode(chain, &device, memory + REQUEST, 80, &call), PK_DONE);
    expect("the bytes of entries", call.data_len, 0x80);
    return call.ticket;
}

/* list_len is the size of the whole buffer. A first entry that doesn't fit is EINVAL. */
static void entries(void) {
    static uint8_t list[0x80], name[255], front[PK_FRONT_MAX];
    struct pk_chain chain = {0};
    struct pk_stores stores;
    uint32_t ticket = ask_entries(&chain);
    int32_t error;
    memset(name, 'n', sizeof name);
    expect("an entry", pk_add_direntry(&chain, ticket, list, sizeof list, name, 1, 2, 1, 8),
           PK_DONE);
    expect("the rest of the buffer",
           pk_add_direntry(&chain, ticket, list + 32, sizeof list - 32, name, 2, 3, 2, 8),
           PK_BAD_ARGUMENT);
    expect("the whole buffer",
           pk_add_direntry(&chain, ticket, list, sizeof list, name, 2, 3, 2, 8), PK_DONE);
    pk_abandon(&chain);
    ticket = ask_entries(&chain);
    expect("a first entry that doesn't fit",
           pk_add_direntry(&chain, ticket, list, sizeof list, name, 255, 2, 1, 8), PK_FULL);
    expect("its answer", pk_reply_err(&chain, ticket, EINVAL), PK_DONE);
    expect("the push", pk_push(&chain, &queues[0], front, sizeof front, &stores), PK_DONE);
    memcpy(&error, front + 4, 4);
    expect("the reply's error", (uint64_t)-error, EINVAL);
    pk_chain_free(&chain);
}

/* A table of 256 entries or more is loaded by PK_LOAD_MAX bytes at once, and never by more. */
static void loads_of(struct pk_chain *chain, unsigned count) {
    struct pk_pop_result step;
    struct pk_queue queue = {.desc = 0, .avail = LONG_AVAIL, .used = LONG_USED, .size = LONG};
    memset(memory, 0, MEMORY);
    expect("a queue begins", pk_queue_begin(&queue, 0), PK_DONE);
    offer(&queue, GETATTR, 56, 0x100);
    describe(0, TABLE, 16 * count, INDIRECT, 0);
    for (unsigned k = 0; k < count; k++)
        describe(TABLE + 16 * k, k ? REPLY : REQUEST, k ? 0x10 : 56,
                 (uint16_t)((k ? WRITE : 0) | (k + 1 < count ? FOLLOWED : 0)), (uint16_t)(k + 1));
    longest_load = 0;
    expect("the pop", pop(chain, &queue, &step), PK_DONE);
    expect("its fault", step.fault, PK_FAULT_NONE);
    expect("its reply buffer", step.reply_len, 16 * (count - 1));
    expect("the longest load", longest_load, count < 256 ? 16 * count : PK_LOAD_MAX);
    pk_abandon(chain);
}

static void longest_loads(void) {
    static const unsigned counts[] = {255, 256, 257, 511, 512};
    struct pk_chain chain = {0};
    expect("the memory", pk_chain_set_memory(&chain, &device, &region, 1), PK_DONE);
    for (size_t k = 0; k < sizeof counts / sizeof *counts; k++) loads_of(&chain, counts[k]);
    expect("PK_LOAD_MAX", PK_LOAD_MAX, 4096);
    pk_chain_free(&chain);
}

int main(void) {
    after_a_free();
    by_another_handle(0, NEXT);
    by_another_handle(1, NEXT);
    by_another_handle(1, 0);
    after_a_reset();
    far_apart();
    with_equal_addresses();
    restores_valid_queues();
    never_begun();
    entries();
    longest_loads();
    return 0;
}
