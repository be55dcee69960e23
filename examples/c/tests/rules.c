/* What rules of pitskhomu.h are for: a caller that breaks one gets a wrong result, and one that
 * keeps it doesn't. Crate notify has the rules of notifications, and other tests here those of
 * calls that are refused. */
#include <pitskhomu.h>
#include <stdio.h>
#include <stdlib.h>
#include <string.h>

enum { SIZE = 8, DESC = 0x1000, AVAIL = 0x2000, USED = 0x3000, REQUEST = 0x4000, REPLY = 0x5000 };
enum { MEMORY = 0x6000, GETATTR = 3, UNLINK = 10, GETATTR_LEN = 56, REPLY_LEN = 120, PAIR = 2 };

static _Alignas(4096) uint8_t memory[MEMORY]; /* the guest's, from its address 0 on */
static const struct pk_region region = {.guest = 0, .len = MEMORY, .host = (uintptr_t)memory};
static struct pk_device device = PK_DEVICE;
static struct pk_queue queue;
static struct pk_chain chains[PAIR];
static uint8_t bytes[PK_LOAD_MAX];

static void expect(const char *what, uint64_t found, uint64_t wanted) {
    if (found == wanted) return;
    fprintf(stderr, "FAILED: %s: %llu, and not %llu\n", what, (unsigned long long)found,
            (unsigned long long)wanted);
    exit(1);
}

static void put(size_t at, uint64_t value, size_t len) { memcpy(memory + at, &value, len); }

static void begin(uint16_t next_avail, uint8_t event_index) {
    memset(memory, 0, MEMORY);
    for (int k = 0; k < PAIR; k++) pk_abandon(&chains[k]);
    queue.desc = DESC, queue.avail = AVAIL, queue.used = USED, queue.size = SIZE;
    queue.max_in_flight = PAIR, queue.event_index = event_index;
    put(AVAIL + 2, next_avail, 2);
    expect("a queue begins", pk_queue_begin(&queue, next_avail), PK_DONE);
}

/* The driver makes a chain available, whose head is `head`: a request, and a reply buffer. */
static void offer(uint16_t head) {
    uint16_t index;
    memcpy(&index, memory + AVAIL + 2, sizeof index);
    put(REQUEST, GETATTR_LEN, 4), put(REQUEST + 4, GETATTR, 4), put(REQUEST + 16, 1, 8);
    put(DESC + 16u * head, REQUEST, 8), put(DESC + 16u * head + 8, GETATTR_LEN, 4);
    put(DESC + 16u * head + 12, 1, 2), put(DESC + 16u * head + 14, head + 1u, 2);
    put(DESC + 16u * head + 16, REPLY, 8), put(DESC + 16u * head + 24, REPLY_LEN, 4);
    put(DESC + 16u * head + 28, 2, 2);
    put(AVAIL + 4 + 2u * (index % SIZE), head, 2), put(AVAIL + 2, index + 1u, 2);
}

/* Goes on with a pop, from bytes that were loaded for its first load; NULL loads them. */
static uint32_t pop(struct pk_chain *chain, const void *first, struct pk_pop_result *step) {
    uint32_t status = pk_pop(chain, &queue, bytes, 0, step);
    if (status == PK_LOAD && first) {
        memcpy(bytes, first, step->load_len);
        status = pk_pop(chain, &queue, bytes, step->load_len, step);
    }
    while (status == PK_LOAD) {
        memcpy(bytes, (const void *)step->load_at, step->load_len);
        status = pk_pop(chain, &queue, bytes, step->load_len, step);
    }
    return status;
}

static void push(struct pk_chain *chain, uint16_t seen, uint8_t wanted) {
    uint8_t front[PK_FRONT_MAX], notify;
    struct pk_stores stores;
    expect("a push", pk_push(chain, &queue, front, sizeof front, &stores), PK_DONE);
    expect("its end", pk_pushed(chain, &queue, seen, &notify), PK_DONE);
    expect("its notification", notify, wanted);
}

/* Rule 2. The guest changes its request between two loads of the same bytes: what the caller tested
 * isn't what is decoded. The library keeps no bytes of the request. */
static void load_twice(void) {
    struct pk_pop_result step;
    struct pk_call call;
    uint8_t request[GETATTR_LEN];
    begin(0, 0);
    offer(0);
    expect("a pop", pop(&chains[0], NULL, &step), PK_DONE);
    memcpy(request, memory + REQUEST, sizeof request);
    put(REQUEST + 4, UNLINK, 4), memcpy(memory + REQUEST + 40, "name-of-15-byte", 16);
    expect("the copy's decode", pk_decode(&chains[0], &device, request, sizeof request, &call), 0);
    expect("the copy's call", call.kind, PK_CALL_GETATTR);
    expect("a drop", pk_drop(&chains[0], &queue), PK_WRONG_ORDER);
    begin(0, 0);
    offer(0);
    expect("a pop", pop(&chains[0], NULL, &step), PK_DONE);
    put(REQUEST + 4, UNLINK, 4), memcpy(memory + REQUEST + 40, "name-of-15-byte", 16);
    expect("a decode", pk_decode(&chains[0], &device, memory + REQUEST, GETATTR_LEN, &call), 0);
    expect("the call of bytes that were loaded again", call.kind, PK_CALL_UNLINK);
}

/* Rule 3. An index that is loaded byte by byte, while the driver raises it from 0xff to 0x100, is
 * far ahead: the queue stops. */
static void tear_an_index(void) {
    const uint16_t torn = 0x1ff;
    struct pk_pop_result step;
    begin(0xff, 0);
    offer(0);
    expect("a pop by a whole index", pop(&chains[0], NULL, &step), PK_DONE);
    begin(0xff, 0);
    offer(0);
    expect("a pop by a torn index", pop(&chains[0], &torn, &step), PK_AVAIL_TOO_FAR);
}

/* Rule 3. An entry that is loaded before the index, as without acquire order, is an earlier one. */
static void load_an_entry_early(void) {
    struct pk_load_ahead loads[2] = {{(uintptr_t)memory + AVAIL + 2, 2},
                                     {(uintptr_t)memory + AVAIL + 4, 2}};
    struct pk_pop_result step;
    begin(0, 0);
    memcpy(bytes + 2, memory + AVAIL + 4, 2); /* the driver makes the chain available after it */
    offer(2);
    memcpy(bytes, memory + AVAIL + 2, 2);
    expect("a load", pk_pop_ahead(&chains[0], &queue, loads, 2, bytes, 4, &step), PK_LOAD);
    expect("the descriptor of head 0", step.load_at, (uintptr_t)memory + DESC);
    expect("a drop", pk_drop(&chains[0], &queue), PK_DONE);
    expect("a pop in order", pop(&chains[0], NULL, &step), PK_DONE);
    expect("the head", step.head, 2);
}

/* NOTIFICATIONS. A thread that resets its event after its last pop resets a notification that came
 * meanwhile, and sleeps beside a chain. */
static void reset_an_event_late(void) {
    struct pk_pop_result step;
    int event = 1; /* as an eventfd's counter: the thread was woken */
    begin(0, 0);
    expect("a pop", pop(&chains[0], NULL, &step), PK_IDLE);
    offer(0), event++;
    event = 0;
    expect("no notification, and a chain", (uint64_t)event + memory[AVAIL + 2], 1);
    event = 1;
    begin(0, 0);
    event = 0;
    offer(0), event++;
    expect("a pop after the reset", pop(&chains[0], NULL, &step), PK_DONE);
    expect("the event, which wakes once more", (uint64_t)event, 1);
}

/* Statuses 2 to 8. The chain that is in flight is pushed; the queue is popped after its reset. */
static void stop_a_queue(void) {
    const uint16_t ahead = 100;
    struct pk_pop_result step;
    struct pk_call call;
    begin(0, 0);
    offer(0);
    expect("a pop", pop(&chains[0], NULL, &step), PK_DONE);
    expect("a pop that stops", pop(&chains[1], &ahead, &step), PK_AVAIL_TOO_FAR);
    expect("the queue's refusal", queue.stopped, PK_AVAIL_TOO_FAR);
    offer(2);
    expect("a pop then", pop(&chains[1], NULL, &step), PK_STOPPED);
    expect("a decode", pk_decode(&chains[0], &device, memory + REQUEST, GETATTR_LEN, &call), 0);
    expect("a reply", pk_reply_err(&chains[0], call.ticket, 5), PK_DONE);
    push(&chains[0], 0, 1);
    expect("a reset", pk_queue_begin(&queue, 1), PK_DONE);
    expect("a pop after it", pop(&chains[1], NULL, &step), PK_DONE);
}

/* FEATURES. With VIRTIO_F_EVENT_IDX the 2 bytes are used_event, an index; without it, flags.
 * A queue that wasn't given `event_index` takes the driver's index 1 for NO_INTERRUPT. */
static void agree_on_events(void) {
    struct pk_pop_result step;
    struct pk_call call;
    for (uint8_t agreed = 0; agreed < 2; agreed++) {
        begin(1, agreed);
        offer(0);
        expect("a pop", pop(&chains[0], NULL, &step), PK_DONE);
        expect("a decode", pk_decode(&chains[0], &device, memory + REQUEST, GETATTR_LEN, &call), 0);
        expect("a reply", pk_reply_err(&chains[0], call.ticket, 5), PK_DONE);
        push(&chains[0], 1, agreed);
    }
}

int main(void) {
    for (int k = 0; k < PAIR; k++)
        expect("memory", pk_chain_set_memory(&chains[k], &device, &region, 1), PK_DONE);
    load_twice();
    tear_an_index();
    load_an_entry_early();
    reset_an_event_late();
    stop_a_queue();
    agree_on_events();
    for (int k = 0; k < PAIR; k++) pk_chain_free(&chains[k]);
    return 0;
}
