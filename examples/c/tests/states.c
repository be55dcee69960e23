/* The state of a handle, after each call that changes it (pk_chain_state). The ticket of each pop;
 * a chain that is dropped while another handle pops; a reset amid a push. Good names and bad ones
 * (pk_is_name). */
#include <pitskhomu.h>
#include <stdio.h>
#include <stdlib.h>
#include <string.h>

enum { SIZE = 8, DESC = 0, AVAIL = 0x1000, USED = 0x2000, REQUEST = 0x3000, REPLY = 0x4000 };
enum { FORGET = 2, GETATTR = 3, READDIR = 28 }; /* opcodes of linux/fuse.h */

static _Alignas(4096) uint8_t memory[0x5000]; /* the guest's, from its address 0 on */
static struct pk_device device = PK_DEVICE;
static struct pk_queue queue = {.desc = DESC, .avail = AVAIL, .used = USED, .size = SIZE};
static struct pk_chain chain;
static struct pk_pop_result step;
static struct pk_call call;

static void expect(const char *what, uint64_t found, uint64_t wanted) {
    if (found == wanted) return;
    fprintf(stderr, "FAILED: %s: %llu, and not %llu\n", what, (unsigned long long)found,
            (unsigned long long)wanted);
    exit(1);
}

/* The state after a call with this status. */
static void after(const char *what, uint32_t status, uint32_t wanted, uint32_t state) {
    expect(what, status, wanted);
    expect(what, pk_chain_state(&chain), state);
    if (strncmp(pk_state_name(state), "PK_STATE_", 9) != 0) expect("a name", 0, 1);
}

static void put(size_t at, uint64_t value, size_t len) { memcpy(memory + at, &value, len); }

static void describe(unsigned index, uint64_t addr, uint32_t len, uint16_t flags, uint16_t next) {
    put(16 * index, addr, 8);
    put(16 * index + 8, len, 4);
    put(16 * index + 12, flags, 2);
    put(16 * index + 14, next, 2);
}

/* The driver makes a chain available: descriptor 0 has the request, 1 the reply buffer. */
static void request(uint32_t opcode, uint32_t len) {
    static uint16_t available;
    size_t slot = available % SIZE;
    memset(memory + REQUEST, 0, 80);
    describe(0, REQUEST, len, 1, 1);
    describe(1, REPLY, 0x100, 2, 0);
    put(REQUEST, len, 4);
    put(REQUEST + 4, opcode, 4);
    put(REQUEST + 8, 7, 8);
    put(REQUEST + 16, 1, 8);
    put(REQUEST + 56, 0x80, 4); /* the size of a READDIR */
    put(AVAIL + 4 + 2 * slot, 0, 2);
    put(AVAIL + 2, ++available, 2);
}

/* Pops a chain: while it loads, the state is POPPING. */
static uint32_t pop(void) {
    static uint8_t bytes[PK_LOAD_MAX];
    uint32_t s;
    memset(&step, 0, sizeof step);
    while ((s = pk_pop(&chain, &queue, bytes, step.load_len, &step)) == PK_LOAD) {
        after("a load", s, PK_LOAD, PK_STATE_POPPING);
        memcpy(bytes, (const void *)step.load_at, step.load_len);
    }
    return s;
}

static uint32_t decode(void) {
    return pk_decode(&chain, &device, memory + REQUEST, (size_t)step.request_len, &call);
}

static void push(void) {
    static uint8_t front[PK_FRONT_MAX];
    struct pk_stores stores;
    uint8_t notify = 0;
    after("the push", pk_push(&chain, &queue, front, sizeof front, &stores), PK_DONE,
          PK_STATE_PUSHING);
    after("its end", pk_pushed(&chain, &queue, 0, &notify), PK_DONE, PK_STATE_FREE);
}

static void an_answer(void) {
    request(GETATTR, 56);
    after("the pop", pop(), PK_DONE, PK_STATE_POPPED);
    after("the request", decode(), PK_DONE, PK_STATE_DECODED);
    after("a late answer", pk_reply_err(&chain, call.ticket + 1, 5), PK_OTHER_CALL,
          PK_STATE_DECODED);
    after("the answer", pk_reply_err(&chain, call.ticket, 5), PK_DONE, PK_STATE_REPLIED);
    push();
}

static void a_listing(void) {
    static uint8_t list[0x80];
    const uint8_t name[] = {'a'};
    uint64_t len = 0;
    request(READDIR, 80);
    after("the pop", pop(), PK_DONE, PK_STATE_POPPED);
    after("the request", decode(), PK_DONE, PK_STATE_LISTING);
    after("an entry",
          pk_add_direntry(&chain, call.ticket, list, sizeof list, name, 1, 2, 1, 8), PK_DONE,
          PK_STATE_LISTING);
    after("the listing", pk_reply_entries(&chain, call.ticket, &len), PK_DONE, PK_STATE_REPLIED);
    push();
}

static void without_an_answer(void) {
    request(FORGET, 48);
    after("the pop", pop(), PK_DONE, PK_STATE_POPPED);
    after("the request", decode(), PK_DONE, PK_STATE_REPLIED);
    push();
    request(GETATTR, 56);
    describe(1, 0x100000, 0x100, 2, 0); /* past the guest's memory */
    after("the faulty chain", pop(), PK_DONE, PK_STATE_REPLIED);
    expect("its fault", step.fault, PK_FAULT_ROOM_UNREACHABLE);
    push();
}

static void by_own_bytes(void) {
    request(GETATTR, 56);
    after("the pop", pop(), PK_DONE, PK_STATE_POPPED);
    after("the reply", pk_reply_bytes(&chain, step.ticket, 0), PK_DONE, PK_STATE_REPLIED);
    push();
}

static void ended_early(void) {
    request(GETATTR, 56);
    after("the pop", pop(), PK_DONE, PK_STATE_POPPED);
    after("the drop", pk_drop(&chain, &queue), PK_DONE, PK_STATE_FREE);
    memset(&step, 0, sizeof step);
    after("a pop", pk_pop(&chain, &queue, memory, 0, &step), PK_LOAD, PK_STATE_POPPING);
    after("its drop", pk_drop(&chain, &queue), PK_DONE, PK_STATE_FREE);
    after("the pop", pop(), PK_DONE, PK_STATE_POPPED);
    pk_abandon(&chain);
    after("no chain", PK_DONE, PK_DONE, PK_STATE_FREE);
}

/* A drop comes too late once the request was decoded: the chain stays as it is. So it does with
 * another queue. */
static void dropped_too_late(void) {
    struct pk_queue other = queue;
    request(GETATTR, 56);
    after("the pop", pop(), PK_DONE, PK_STATE_POPPED);
    other.next_used = other.next_avail;
    after("the other queue", pk_drop(&chain, &other), PK_OTHER_QUEUE, PK_STATE_POPPED);
    after("the request", decode(), PK_DONE, PK_STATE_DECODED);
    after("a late drop", pk_drop(&chain, &queue), PK_WRONG_ORDER, PK_STATE_DECODED);
    after("the answer", pk_reply_err(&chain, call.ticket, 5), PK_DONE, PK_STATE_REPLIED);
    after("a later drop", pk_drop(&chain, &queue), PK_WRONG_ORDER, PK_STATE_REPLIED);
    push();
    request(GETATTR, 56);
    describe(1, 0x100000, 0x100, 2, 0); /* past the guest's memory */
    after("the faulty chain", pop(), PK_DONE, PK_STATE_REPLIED);
    after("its drop", pk_drop(&chain, &queue), PK_WRONG_ORDER, PK_STATE_REPLIED);
    push();
}

/* Each pop takes the next ticket, modulo 2^32, however its chain ended. So a late answer for a
 * chain that was dropped isn't taken for the next one. */
static void tickets(void) {
    expect("the first ticket", pk_chain_set_ticket(&chain, 0xfffffffe), PK_DONE);
    request(GETATTR, 56);
    after("the pop", pop(), PK_DONE, PK_STATE_POPPED);
    expect("its ticket", step.ticket, 0xfffffffe);
    after("the drop", pk_drop(&chain, &queue), PK_DONE, PK_STATE_FREE);
    after("the next pop", pop(), PK_DONE, PK_STATE_POPPED);
    expect("the next ticket", step.ticket, 0xffffffff);
    after("a late reply", pk_reply_bytes(&chain, 0xfffffffe, 0), PK_OTHER_CALL, PK_STATE_POPPED);
    after("the request", decode(), PK_DONE, PK_STATE_DECODED);
    expect("the call's ticket", call.ticket, 0xffffffff);
    after("the answer", pk_reply_err(&chain, call.ticket, 5), PK_DONE, PK_STATE_REPLIED);
    push();
    request(FORGET, 48);
    after("the third pop", pop(), PK_DONE, PK_STATE_POPPED);
    expect("the ticket around", step.ticket, 0);
    after("the third request", decode(), PK_DONE, PK_STATE_REPLIED);
    push();
}

/* A listing that is abandoned: after the queue's reset the next pop has the next ticket, and takes
 * no late entry. */
static void ticket_of_an_abandoned_listing(void) {
    static uint8_t list[0x80];
    const uint8_t name[] = {'a'};
    request(READDIR, 80);
    after("the pop", pop(), PK_DONE, PK_STATE_POPPED);
    after("the request", decode(), PK_DONE, PK_STATE_LISTING);
    uint32_t late = call.ticket;
    pk_abandon(&chain);
    expect("the reset", pk_queue_begin(&queue, queue.next_avail), PK_DONE);
    request(READDIR, 80);
    after("the next pop", pop(), PK_DONE, PK_STATE_POPPED);
    expect("the next ticket", step.ticket, late + 1);
    after("the next request", decode(), PK_DONE, PK_STATE_LISTING);
    after("a late entry", pk_add_direntry(&chain, late, list, sizeof list, name, 1, 2, 1, 8),
          PK_OTHER_CALL, PK_STATE_LISTING);
    after("the answer", pk_reply_err(&chain, call.ticket, 5), PK_DONE, PK_STATE_REPLIED);
    push();
}

/* A pop that began before a reset of its queue doesn't go on, though position and addresses are the
 * same. */
static void reset_amid_a_pop(void) {
    static uint8_t bytes[PK_LOAD_MAX];
    request(GETATTR, 56);
    memset(&step, 0, sizeof step);
    after("a pop", pk_pop(&chain, &queue, bytes, 0, &step), PK_LOAD, PK_STATE_POPPING);
    memcpy(bytes, (const void *)step.load_at, step.load_len);
    expect("the reset", pk_queue_begin(&queue, queue.next_avail), PK_DONE);
    after("its load", pk_pop(&chain, &queue, bytes, step.load_len, &step), PK_OTHER_QUEUE,
          PK_STATE_POPPING);
    pk_abandon(&chain);
    after("the pop", pop(), PK_DONE, PK_STATE_POPPED);
    after("the request", decode(), PK_DONE, PK_STATE_DECODED);
    after("the answer", pk_reply_err(&chain, call.ticket, 5), PK_DONE, PK_STATE_REPLIED);
    push();
}

/* A record is restored between pk_push and pk_pushed: that resets the queue, so no push is under
 * way. */
static void restored_amid_a_push(void) {
    static uint8_t front[PK_FRONT_MAX], record[0x80];
    struct pk_stores stores;
    size_t len = 0, count = 0;
    expect("the record", pk_save(&device, &queue, 1, record, sizeof record, &len), PK_DONE);
    queue.max_in_flight = 2;
    request(FORGET, 48);
    after("the pop", pop(), PK_DONE, PK_STATE_POPPED);
    after("the request", decode(), PK_DONE, PK_STATE_REPLIED);
    after("the push", pk_push(&chain, &queue, front, sizeof front, &stores), PK_DONE,
          PK_STATE_PUSHING);
    expect("a restore", pk_restore(&device, &queue, 1, record, len, &count), PK_DONE);
    expect("no push is under way", queue.pushing, 0);
    expect("most in flight", queue.max_in_flight, 2); /* the record hasn't it */
    queue.max_in_flight = 0;
    pk_abandon(&chain);
    after("the chain again", pop(), PK_DONE, PK_STATE_POPPED);
    after("its request", decode(), PK_DONE, PK_STATE_REPLIED);
    push();
}

/* A pop that began before another chain of the queue was popped and dropped doesn't go on, though
 * the queue's position is the same again. */
static void dropped_meanwhile(void) {
    static uint8_t bytes[PK_LOAD_MAX];
    const struct pk_region region = {.guest = 0, .len = sizeof memory, .host = (uintptr_t)memory};
    struct pk_chain other = {0};
    struct pk_pop_result early = {0};
    expect("its memory", pk_chain_set_memory(&other, &device, &region, 1), PK_DONE);
    request(GETATTR, 56);
    expect("an early pop", pk_pop(&other, &queue, bytes, 0, &early), PK_LOAD);
    memcpy(bytes, (const void *)early.load_at, early.load_len);
    after("the pop", pop(), PK_DONE, PK_STATE_POPPED);
    after("the drop", pk_drop(&chain, &queue), PK_DONE, PK_STATE_FREE);
    expect("its load", pk_pop(&other, &queue, bytes, early.load_len, &early), PK_OTHER_QUEUE);
    pk_chain_free(&other);
    after("the pop", pop(), PK_DONE, PK_STATE_POPPED);
    after("the request", decode(), PK_DONE, PK_STATE_DECODED);
    after("the answer", pk_reply_err(&chain, call.ticket, 5), PK_DONE, PK_STATE_REPLIED);
    push();
}

/* A reset between pk_push and pk_pushed: the queue's next chain is pushed as any other. */
static void reset_amid_a_push(void) {
    static uint8_t front[PK_FRONT_MAX];
    struct pk_stores stores;
    uint8_t notify = 1;
    request(FORGET, 48);
    after("the pop", pop(), PK_DONE, PK_STATE_POPPED);
    after("the request", decode(), PK_DONE, PK_STATE_REPLIED);
    after("the push", pk_push(&chain, &queue, front, sizeof front, &stores), PK_DONE,
          PK_STATE_PUSHING);
    expect("a push is under way", queue.pushing, 1);
    expect("the reset", pk_queue_begin(&queue, queue.next_avail), PK_DONE);
    expect("none after it", queue.pushing, 0);
    after("its end", pk_pushed(&chain, &queue, 0, &notify), PK_OTHER_QUEUE, PK_STATE_PUSHING);
    expect("no notification", notify, 0);
    pk_abandon(&chain);
    an_answer();
}

static void names(void) {
    static const struct {
        const char *name;
        size_t len;
        uint8_t is_name;
    } rows[] = {{"", 0, 0},   {".", 1, 0},   {"..", 2, 0}, {"...", 3, 1},  {".a", 2, 1},
                {"a.", 2, 1}, {"a", 1, 1},   {"/", 1, 0},  {"a/b", 3, 0},  {"a/", 2, 0},
                {"\0", 1, 0}, {"a\0b", 3, 0}, {"a\0", 2, 0}, {"\377", 1, 1}};
    for (size_t k = 0; k < sizeof rows / sizeof *rows; k++)
        expect(rows[k].name, pk_is_name((const uint8_t *)rows[k].name, rows[k].len),
               rows[k].is_name);
}

int main(void) {
    struct pk_region region = {.guest = 0, .len = sizeof memory, .host = (uintptr_t)memory};
    expect("the queue", pk_queue_begin(&queue, 0), PK_DONE);
    after("zeros", pk_chain_set_ticket(&chain, 1), PK_WRONG_ORDER, PK_STATE_NONE);
    after("the memory", pk_chain_set_memory(&chain, &device, &region, 1), PK_DONE, PK_STATE_FREE);
    after("no chain", pop(), PK_IDLE, PK_STATE_FREE);
    an_answer();
    a_listing();
    without_an_answer();
    by_own_bytes();
    dropped_too_late();
    tickets();
    dropped_meanwhile();
    reset_amid_a_push();
    ticket_of_an_abandoned_listing();
    reset_amid_a_pop();
    restored_amid_a_push();
    ended_early();
    names();
    pk_chain_free(&chain);
    after("no handle", PK_DONE, PK_DONE, PK_STATE_NONE);
    return 0;
}
