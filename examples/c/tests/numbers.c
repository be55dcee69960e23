/* The numbers that tools/pk_numbers.c gives: a new handle its first ticket, and each queue that is
 * reset or restored its `reset_count`. No two have the same in a process, also by several threads,
 * nor ones that are near each other. A call that fails gives none, and changes no queue. */
#define _POSIX_C_SOURCE 200809L
#include <pitskhomu.h>
#include <pthread.h>
#include <stdio.h>
#include <stdlib.h>
#include <string.h>

enum { MANY = 10000, THREADS = 4, EACH = 50000, QUEUES = 5 };
enum { DESC = 0, AVAIL = 0x1000, USED = 0x2000, REQUEST = 0x3000, REPLY = 0x4000 };

static _Alignas(4096) uint8_t memory[0x5000]; /* the guest's, from its address 0 on */
static const struct pk_device device = PK_DEVICE;
static const struct pk_queue fresh = {
    .desc = DESC, .avail = AVAIL, .used = USED, .size = 8, .max_in_flight = 8};

static void expect(const char *what, uint64_t found, uint64_t wanted) {
    if (found == wanted) return;
    fprintf(stderr, "FAILED: %s: %llu, and not %llu\n", what, (unsigned long long)found,
            (unsigned long long)wanted);
    exit(1);
}

static int compare(const void *a, const void *b) {
    uint32_t one = *(const uint32_t *)a, other = *(const uint32_t *)b;
    return (one > other) - (one < other);
}

/* These `count` numbers aren't 0, and no two are nearer than 2^32 / (3 * count), modulo 2^32. */
static void are_apart(const char *what, uint32_t *numbers, size_t count) {
    uint64_t least = (UINT64_C(1) << 32) / (3 * count);
    qsort(numbers, count, sizeof *numbers, compare);
    expect(what, numbers[0] == 0, 0);
    for (size_t k = 0; k < count; k++)
        expect(what, (uint32_t)(numbers[(k + 1) % count] - numbers[k]) < least, 0);
}

static uint32_t set_memory(struct pk_chain *chain, uint64_t len) {
    struct pk_region region = {0, len, (uintptr_t)memory};
    return pk_chain_set_memory(chain, &device, &region, 1);
}

static void put(size_t at, uint64_t value, size_t len) { memcpy(memory + at, &value, len); }

/* One request is available in a ring, again and again. */
static void draw(void) {
    put(DESC, REQUEST, 8), put(DESC + 8, 40, 4), put(DESC + 12, 1, 2), put(DESC + 14, 1, 2);
    put(DESC + 16, REPLY, 8), put(DESC + 24, 16, 4), put(DESC + 28, 2, 2);
    put(AVAIL + 2, 1, 2);
}

/* The ticket of a handle's next chain. */
static uint32_t ticket_of(struct pk_chain *chain, struct pk_queue *queue) {
    uint8_t bytes[PK_LOAD_MAX];
    struct pk_pop_result pop = {0};
    uint32_t status = pk_pop(chain, queue, bytes, 0, &pop);
    while (status == PK_LOAD) {
        memcpy(bytes, (const void *)pop.load_at, pop.load_len);
        status = pk_pop(chain, queue, bytes, pop.load_len, &pop);
    }
    expect("a pop", status, PK_DONE);
    expect("its drop", pk_drop(chain, queue), PK_DONE);
    return pop.ticket;
}

static void check_handles(void) {
    static uint32_t tickets[MANY];
    struct pk_queue queue = fresh;
    expect("a queue", pk_queue_begin(&queue, 0), PK_DONE);
    for (size_t k = 0; k < MANY; k++) {
        struct pk_chain chain = {0};
        if (k % 3 == 0) expect("no region", set_memory(&chain, 100), PK_BAD_REGION_LEN);
        expect("the memory", set_memory(&chain, sizeof memory), PK_DONE);
        tickets[k] = ticket_of(&chain, &queue);
        if (k % 5 == 0) { /* of later memory it goes on with its tickets */
            expect("no region", set_memory(&chain, 0), PK_EMPTY_REGION);
            expect("other memory", set_memory(&chain, sizeof memory), PK_DONE);
            expect("the next ticket", ticket_of(&chain, &queue), (uint32_t)(tickets[k] + 1));
        }
        pk_chain_free(&chain);
    }
    are_apart("a ticket is near another", tickets, MANY);
}

static void check_resets(void) {
    static uint32_t counts[MANY];
    struct pk_queue queue = fresh, odd = fresh, before;
    for (size_t k = 0; k < MANY; k++) {
        expect("a reset", pk_queue_begin(&queue, (uint16_t)k), PK_DONE);
        expect("its position", queue.next_avail, (uint16_t)k);
        counts[k] = queue.reset_count;
        if (k % 7 == 0) {
            odd.size = 7, odd.reset_count = 4711;
            before = odd;
            expect("no queue", pk_queue_begin(&odd, 1), PK_BAD_QUEUE_SIZE);
            expect("it is as it was", memcmp(&odd, &before, sizeof odd) != 0, 0);
        }
    }
    are_apart("a reset is near another", counts, MANY);
}

/* Each queue of a record gets a number of its own, and the others of the caller none. */
static void check_restores(void) {
    static uint32_t counts[MANY];
    uint8_t record[1024];
    struct pk_queue saved[QUEUES], queues[QUEUES + 1];
    struct pk_device target = PK_DEVICE;
    size_t len, count, total = 0;
    for (size_t k = 0; k < QUEUES; k++) {
        saved[k] = fresh;
        expect("a queue", pk_queue_begin(&saved[k], (uint16_t)(100 + k)), PK_DONE);
    }
    for (unsigned turn = 0; turn < 300; turn++) {
        size_t some = 1 + turn % QUEUES;
        expect("a record", pk_save(&device, saved, some, record, sizeof record, &len), PK_DONE);
        for (size_t k = 0; k < QUEUES + 1; k++) queues[k] = (struct pk_queue){.reset_count = 4711};
        expect("a short list", pk_restore(&target, queues, some - 1, record, len, &count),
               PK_SHORT_BUFFER);
        expect("its count", count, some);
        expect("too short", pk_restore(&target, queues, QUEUES + 1, record, len - 1, &count),
               PK_RECORD_TRUNCATED);
        for (size_t k = 0; k < QUEUES + 1; k++) expect("no reset", queues[k].reset_count, 4711);
        expect("restored", pk_restore(&target, queues, QUEUES + 1, record, len, &count), PK_DONE);
        expect("its count", count, some);
        for (size_t k = 0; k < QUEUES + 1; k++) {
            expect("a position", queues[k].next_avail, k < some ? 100 + k : 0);
            if (k < some) counts[total++] = queues[k].reset_count;
            if (k >= some) expect("another queue", queues[k].reset_count, 4711);
        }
    }
    are_apart("a restored queue is near another", counts, total);
}

/* Several threads reset queues at once. */
static pthread_barrier_t start;

static void *reset_many(void *of) {
    uint32_t *counts = of;
    struct pk_queue queue = fresh;
    pthread_barrier_wait(&start);
    for (size_t k = 0; k < EACH; k++) {
        expect("a reset", pk_queue_begin(&queue, 0), PK_DONE);
        counts[k] = queue.reset_count;
    }
    return NULL;
}

static void check_threads(void) {
    static uint32_t counts[THREADS * EACH];
    pthread_t threads[THREADS];
    pthread_barrier_init(&start, NULL, THREADS);
    for (size_t k = 0; k < THREADS; k++)
        if (pthread_create(&threads[k], NULL, reset_many, counts + EACH * k)) exit(1);
    for (size_t k = 0; k < THREADS; k++) pthread_join(threads[k], NULL);
    qsort(counts, THREADS * EACH, sizeof *counts, compare);
    for (size_t k = 1; k < THREADS * EACH; k++)
        expect("another thread's reset", counts[k - 1] == counts[k], 0);
}

int main(void) {
    draw();
    check_handles();
    check_resets();
    check_restores();
    check_threads();
    printf("numbers: %d tickets, %d resets\n", MANY, MANY + THREADS * EACH);
    return 0;
}
