/* The barriers between a side's store and its load (VIRTIO 1.2, 2.7.7, 2.7.10, 2.7.13):
 *     fences SECONDS         for each of four kinds
 * Both sides store and load at the same moment, again and again. If the device pushes a chain while
 * the driver enables notifications, one of them sees the other's store. The same holds if the
 * device enables notifications while the driver offers a chain. Without a barrier of
 * pitskhomu_ring.h neither does: found in 27 of 32 runs of little more than a second for each kind,
 * on processors of x86 that other programs used, too. */
#include "../access.h"
#include "chance.h"
#include <pitskhomu_ring.h>
#include <pthread.h>
#include <sched.h>
#include <stdatomic.h>
#include <stdio.h>
#include <stdlib.h>
#include <string.h>
#include <time.h>

enum {
    PAGE = 0x1000, SIZE = 8, DESC = 0, AVAIL = 0x1000, USED = 0x2000, REQUEST = 0x3000,
    REPLY = 0x3800, MEMORY = 0x4000, USED_EVENT = AVAIL + 4 + 2 * SIZE,
    AVAIL_EVENT = USED + 4 + 8 * SIZE, LINE = 8, SPINS = 4000, DELAY = 128
};

static _Alignas(PAGE) uint8_t memory[MEMORY];
static struct pk_device device = PK_DEVICE;
static struct pk_queue queue = {.desc = DESC, .avail = AVAIL, .used = USED, .size = SIZE};
static struct pk_chain chain;
static struct pk_ring ring;
/* How often each side came to a meeting; the driver's next move, and what it saw. */
static _Atomic uint64_t came[2];
static bool arms, over, sees;
static uint64_t delay;
static uint16_t next;

static _Atomic uint16_t *half(size_t at) { return (_Atomic uint16_t *)(void *)(memory + at); }

static void store(size_t at, uint16_t value) {
    atomic_store_explicit(half(at), value, memory_order_release);
}

static uint16_t load(size_t at) { return atomic_load_explicit(half(at), memory_order_acquire); }

static void expect(const char *what, uint32_t found, uint32_t wanted) {
    if (found == wanted) return;
    fprintf(stderr, "FAILED: %s: %u, and not %u (%s)\n", what, found, wanted,
            queue.event_index ? "event" : "flags");
    exit(1);
}

static void meet(int side) {
    uint64_t round = ++came[side];
    for (unsigned spins = 0; came[!side] < round; spins++)
        if (spins > SPINS) sched_yield();
}

static void waits(uint64_t turns) {
    for (volatile uint64_t left = turns; left > 0;) left = left - 1;
}

/* The next chain becomes available. */
static void offer(void) { store(AVAIL + 2, (uint16_t)(queue.next_avail + 1)); }

/* The driver's half of a round: a store, a barrier, and a load. */
static void *drive(void *unused) {
    for (;;) {
        meet(1);
        if (over) return unused;
        /* so the cache line is here, and the device's store takes longer */
        store((arms && queue.event_index ? AVAIL_EVENT : USED) + LINE, 0);
        waits(delay);
        if (arms) store(AVAIL + 2, (uint16_t)(next + 1));
        else if (queue.event_index) store(USED_EVENT, next);
        else store(AVAIL, 0);
        atomic_thread_fence(memory_order_seq_cst);
        if (!arms) sees = load(USED + 2) == (uint16_t)(next + 1);
        else if (queue.event_index) sees = load(AVAIL_EVENT) == next;
        else sees = !(load(USED) & 1);
        meet(1);
    }
}

/* Pops the chain, and decodes its request, whose opcode FUSE doesn't have. */
static void pop(uint32_t status, struct pk_pop_result *step) {
    static uint8_t request[PK_REQUEST_MAX];
    struct pk_call call;
    if (status == PK_IDLE) status = pk_pop_ring(&chain, &queue, &ring, step);
    expect("the pop", status, PK_DONE);
    size_t len = load_front(&chain, step, request);
    expect("the request", ask(&chain, &device, request, len, &call), PK_DONE);
}

/* A push, while the driver enables its notification. */
static void push(bool meets) {
    bool notify = false;
    store(AVAIL, 1);
    if (meets) meet(0);
    expect("the push", give_back(&chain, &queue, NULL, &notify), PK_DONE);
    if (meets) meet(0);
    if (meets && !notify && !sees) expect("a used buffer that nobody sees", 1, 0);
}

static void push_round(void) {
    struct pk_pop_result step;
    arms = false, delay = below(4 * DELAY), next = queue.next_used;
    offer();
    pop(pk_pop_ring(&chain, &queue, &ring, &step), &step);
    push(true);
}

/* Notifications are enabled, while the driver offers a chain. */
static void arm_round(void) {
    struct pk_pop_result step;
    arms = true, delay = below(DELAY), next = queue.next_avail;
    set_notification(&chain, &queue, false, NULL);
    meet(0);
    waits(below(DELAY));
    expect("notifications", set_notification(&chain, &queue, true, NULL), true);
    uint32_t status = pk_pop_ring(&chain, &queue, &ring, &step);
    meet(0);
    if (status == PK_IDLE && !sees) expect("a chain that nobody sees", 1, 0);
    pop(status, &step);
    push(false);
}

static void describe(unsigned index, uint64_t addr, uint32_t len, uint16_t flags, uint16_t other) {
    uint8_t *at = memory + DESC + 16 * (size_t)index;
    memcpy(at, &addr, 8);
    memcpy(at + 8, &len, 4);
    memcpy(at + 12, &flags, 2);
    memcpy(at + 14, &other, 2);
}

static uint64_t now(void) {
    struct timespec time;
    clock_gettime(CLOCK_MONOTONIC, &time);
    return (uint64_t)time.tv_sec * 1000 + (uint64_t)time.tv_nsec / 1000000;
}

int main(int argc, char **argv) {
    uint64_t milliseconds = argc > 1 ? 1000 * strtoull(argv[1], NULL, 10) : 0, rounds = 0;
    const uint32_t head[] = {40, 7, 9, 0}; /* its length, opcode and unique number */
    pthread_t driver;
    if (milliseconds == 0) return fprintf(stderr, "usage: fences SECONDS\n"), 2;
    chance_begin(1);
    describe(0, REQUEST, 40, 1, 1);
    describe(1, REPLY, 64, 2, 0);
    memcpy(memory + REQUEST, head, sizeof head);
    struct pk_region region = {.guest = 0, .len = MEMORY, .host = (uintptr_t)memory};
    expect("the regions", pk_chain_set_memory(&chain, &device, &region, 1), PK_DONE);
    expect("a thread", pthread_create(&driver, NULL, drive, NULL) == 0, 1);
    for (int kind = 0; kind < 4; kind++) {
        queue.event_index = kind & 1;
        store(AVAIL + 2, 0), store(USED + 2, 0);
        expect("the queue", pk_queue_begin(&queue, 0), PK_DONE);
        pk_ring_find(&ring, &queue, &region, 1);
        for (uint64_t begun = now(); now() - begun < milliseconds; rounds++)
            (kind & 2 ? arm_round : push_round)();
    }
    over = true, meet(0);
    pthread_join(driver, NULL);
    pk_chain_free(&chain);
    printf("%llu rounds: each time a side sees the other's store\n", (unsigned long long)rounds);
    return 0;
}
