/* Two threads pop one queue by lists of loads ahead, while the driver adds chains: lists that were
 * made before the lock, that lack loads, or that have others between. Each chain is pushed once,
 * with its own reply. The second run is behind an IOMMU's table, one for both threads; between a
 * pop and its push a thread removes the chain's mappings, and the other pops meanwhile. */
#include "chance.h"
#include <pitskhomu.h>
#include <pthread.h>
#include <sched.h>
#include <stdatomic.h>
#include <stdbool.h>
#include <stdio.h>
#include <stdlib.h>
#include <string.h>

enum { SIZE = 16, SLOTS = 5, PAGE = 0x1000, DESC = 0, AVAIL = PAGE, USED = 2 * PAGE };
enum { BUFFERS = 3 * PAGE, MEMORY = (3 + SLOTS) * PAGE, REPLY = 0x800, ECHO = 24, MOST = 16 };
enum { NEXT = 1, WRITE = 2 };

/* Loads ahead of a pop at a position. */
struct list {
    uint16_t position;
    struct pk_load_ahead ahead[MOST];
    size_t count, len;
    uint8_t bytes[64 * MOST];
};

static _Alignas(4096) uint8_t memory[MEMORY];
static struct pk_device device = PK_DEVICE;
static struct pk_queue queue;
static struct pk_iotlb table;
static pthread_mutex_t lock = PTHREAD_MUTEX_INITIALIZER; /* of queue and table */
static uint64_t shift;                                   /* I/O addresses begin there, or at 0 */
static _Atomic uint16_t position; /* the queue's, for lists that are made without the lock */
static _Atomic bool quits;
static _Atomic unsigned long calls, whole;

static void expect(const char *what, uint64_t found, uint64_t wanted) {
    if (found == wanted) return;
    fprintf(stderr, "FAILED: %s: %llx, and not %llx\n", what, (unsigned long long)found,
            (unsigned long long)wanted);
    abort();
}

/* Loads and stores of even length. Both sides' are atomic, as a guest's on another processor. */
static void load(void *to, uintptr_t at, size_t len) {
    for (size_t k = 0; k < len; k += 2) {
        uint16_t two = atomic_load_explicit((_Atomic uint16_t *)(at + k), memory_order_acquire);
        memcpy((uint8_t *)to + k, &two, 2);
    }
}

static void store(uintptr_t at, const void *bytes, size_t len) {
    for (size_t k = 0; k < len; k += 2) {
        uint16_t two;
        memcpy(&two, (const uint8_t *)bytes + k, 2);
        atomic_store_explicit((_Atomic uint16_t *)(at + k), two, memory_order_release);
    }
}

static void put(size_t at, uint64_t value, size_t len) {
    store((uintptr_t)memory + at, &value, len);
}

/* ------------------------------------------------------------- lists */

static void add(struct list *list, size_t at, size_t len) {
    if (list->count == MOST) return;
    load(list->bytes + list->len, (uintptr_t)memory + at, len);
    list->ahead[list->count++] = (struct pk_load_ahead){(uintptr_t)memory + at, len};
    list->len += len;
}

/* The loads of a chain at a position: index, entry, and four descriptors from the head on. */
static void guess(struct list *list, uint16_t at) {
    uint16_t head;
    list->position = at;
    list->count = list->len = 0;
    add(list, AVAIL + 2, 2);
    add(list, AVAIL + 4 + 2u * (at % SIZE), 2);
    memcpy(&head, list->bytes + 2, 2);
    head %= SIZE;
    add(list, DESC + 16u * head, head + 4 <= SIZE ? 64 : 16u * (SIZE - head));
}

/* Whether a list that was made without the lock is allowed: its index isn't older than the chains
 * that were popped since, and its entry not one that the driver has written anew. */
static bool is_allowed(const struct list *list) {
    uint16_t index;
    memcpy(&index, list->bytes, 2);
    return (uint16_t)(index - queue.next_avail) <= SIZE &&
           (uint16_t)(queue.next_avail - list->position + 1) < SIZE;
}

/* No load lies at an odd address. By 2 more an entry is the next chain's, with wrong bytes. */
static void spoil(struct list *list) {
    switch (below(8)) {
    case 0: list->count = below(list->count + 1); break;
    case 1: list->len = below(list->len + 1); break;
    case 2: list->ahead[below(list->count)].at += 1; break;
    case 3: list->ahead[below(list->count)].len += 2; break;
    case 4: list->ahead[1] = list->ahead[2]; break;
    case 5: add(list, DESC + 16 * below(SIZE - 4), 64); break; /* more than are needed */
    default: break;
    }
}

/* ------------------------------------------------------------- two threads */

static void exchange(struct pk_chain *chain) {
    if (shift) expect("the table", pk_chain_exchange_iotlb(chain, &table), PK_DONE);
}

static void map(unsigned page) {
    expect("a mapping", pk_iotlb_map(&table, shift + page * (uint64_t)PAGE, PAGE,
                                     page * (uint64_t)PAGE, PK_ACCESS_READ_WRITE), PK_DONE);
}

static uint32_t pop(struct pk_chain *chain, struct list *list, struct pk_pop_result *pop) {
    uint8_t bytes[PK_LOAD_MAX];
    if (below(2) || !is_allowed(list)) guess(list, queue.next_avail);
    spoil(list);
    uint32_t s = pk_pop_ahead(chain, &queue, list->ahead, list->count, list->bytes, list->len, pop);
    calls++;
    whole += s != PK_LOAD;
    while (s == PK_LOAD) {
        load(bytes, pop->load_at, pop->load_len);
        s = pk_pop(chain, &queue, bytes, pop->load_len, pop);
    }
    position = queue.next_avail;
    return s;
}

static void push(struct pk_chain *chain) {
    struct pk_stores stores;
    uint8_t front[PK_FRONT_MAX], notify;
    uint16_t seen;
    expect("a push", pk_push(chain, &queue, front, sizeof front, &stores), PK_DONE);
    store(stores.id_at, &stores.id, 4);
    store(stores.len_at, &stores.len, 4);
    store(stores.index_at, &stores.index, 2);
    atomic_thread_fence(memory_order_seq_cst);
    load(&seen, stores.seen_at, 2);
    expect("its end", pk_pushed(chain, &queue, seen, &notify), PK_DONE);
}

/* The reply is the request's number, behind a header. */
static void answer(struct pk_chain *chain, const struct pk_pop_result *pop,
                   const struct pk_window *from, const struct pk_window *to) {
    uint8_t reply[ECHO] = {ECHO};
    expect("no fault", pop->fault, 0);
    expect("the number", from->len, 8);
    expect("the reply", to->len, ECHO);
    load(reply + 16, from->at, 8);
    store(to->at, reply, ECHO);
    expect("an answer", pk_reply_bytes(chain, pop->ticket, ECHO), PK_DONE);
}

/* Under the lock. Returns whether it popped a chain, with its windows. */
static bool take(struct pk_chain *chain, struct list *list, struct pk_pop_result *popped,
                 struct pk_window windows[2]) {
    exchange(chain);
    uint32_t status = pop(chain, list, popped);
    if (status == PK_DONE) {
        expect("a window", pk_request_windows(chain, 16, 8, windows, 1), 1);
        expect("a window", pk_reply_windows(chain, 0, ECHO, windows + 1, 1), 1);
    } else {
        expect("no chain", status, PK_IDLE);
    }
    exchange(chain);
    unsigned page = BUFFERS / PAGE + popped->head / 3u;
    if (shift && status == PK_DONE)
        expect("removed", pk_iotlb_unmap(&table, shift + page * (uint64_t)PAGE, PAGE), PK_DONE);
    return status == PK_DONE;
}

static void *serve(void *seed) {
    struct pk_region region = {0, MEMORY, (uintptr_t)memory};
    struct pk_chain chain = {0};
    struct pk_window windows[2];
    struct pk_pop_result popped;
    struct list list;
    chance_begin((uintptr_t)seed);
    expect("the memory", pk_chain_set_memory(&chain, &device, &region, 1), PK_DONE);
    while (!quits) {
        guess(&list, (uint16_t)(position + below(2))); /* without the lock */
        pthread_mutex_lock(&lock);
        bool took = take(&chain, &list, &popped, windows);
        pthread_mutex_unlock(&lock);
        if (!took) sched_yield();
        if (!took) continue;
        answer(&chain, &popped, &windows[0], &windows[1]);
        pthread_mutex_lock(&lock);
        if (shift) map(BUFFERS / PAGE + popped.head / 3u);
        exchange(&chain);
        push(&chain);
        exchange(&chain);
        pthread_mutex_unlock(&lock);
    }
    pk_chain_free(&chain);
    return NULL;
}

/* ------------------------------------------------------------- the driver */

/* Slot k has descriptors 3k to 3k + 2, of which its chain uses two or three, and page k. */
static void offer(unsigned slot, uint16_t index, uint64_t number) {
    size_t at = DESC + 48 * slot, page = BUFFERS + slot * (size_t)PAGE;
    bool three = below(2);
    for (unsigned k = 0; k < 2u + three; k++) {
        bool writes = k == 1u + three;
        put(at + 16 * k, shift + page + (writes ? REPLY : k * 16), 8);
        put(at + 16 * k + 8, writes || !three ? ECHO : k ? 8 : 16, 4);
        put(at + 16 * k + 12, writes ? WRITE : NEXT, 2);
        put(at + 16 * k + 14, 3 * slot + k + 1, 2);
    }
    put(page + 16, number, 8);
    put(page + REPLY + 16, 0, 8);
    put(AVAIL + 4 + 2u * (index % SIZE), 3 * slot, 2);
    put(AVAIL + 2, index + 1u, 2);
}

/* Offers chains as slots are free, and looks at each one's reply. */
static void drive(uint16_t index, unsigned long count) {
    uint64_t numbers[SLOTS] = {0};
    uint16_t seen = index;
    for (unsigned long offered = 0, used = 0; used < count;) {
        uint16_t now;
        uint32_t element[2];
        for (unsigned k = 0; k < SLOTS && offered < count; k++)
            if (!numbers[k] && below(2)) offer(k, index++, numbers[k] = ++offered);
        load(&now, (uintptr_t)memory + USED + 2, 2);
        if (now == seen) sched_yield();
        for (; seen != now; seen++, used++) {
            load(element, (uintptr_t)memory + USED + 4 + 8 * (seen % SIZE), 8);
            uint64_t slot = element[0] / 3, echo;
            expect("its length", element[1], ECHO);
            expect("a chain of its", slot < SLOTS && numbers[slot] && element[0] % 3 == 0, 1);
            load(&echo, (uintptr_t)memory + BUFFERS + slot * PAGE + REPLY + 16, 8);
            expect("its reply", echo, numbers[slot]);
            numbers[slot] = 0;
        }
    }
}

static void run(uint64_t from, unsigned long count) {
    pthread_t threads[2];
    shift = from;
    memset(memory, 0, MEMORY);
    queue = (struct pk_queue){.desc = shift + DESC, .avail = shift + AVAIL, .used = shift + USED,
                              .size = SIZE, .max_in_flight = SIZE};
    expect("the queue", pk_queue_begin(&queue, 0xfff0), PK_DONE);
    put(AVAIL + 2, 0xfff0, 2);
    put(USED + 2, 0xfff0, 2);
    expect("the table", pk_iotlb_new(&table), PK_DONE);
    for (unsigned page = 0; shift && page < MEMORY / PAGE; page++) map(page);
    position = 0xfff0;
    quits = false;
    for (uintptr_t k = 0; k < 2; k++)
        if (pthread_create(&threads[k], NULL, serve, (void *)(k + 7))) abort();
    drive(0xfff0, count);
    quits = true;
    for (unsigned k = 0; k < 2; k++) pthread_join(threads[k], NULL);
    pk_iotlb_free(&table);
}

int main(int argc, char **argv) {
    unsigned long count = argc > 1 ? strtoul(argv[1], NULL, 10) : 10000;
    chance_begin(5);
    run(0, count);
    run(0x100000, count);
    printf("together: %lu chains once each, %lu calls of pk_pop_ahead, %lu of them whole\n",
           2 * count, calls, whole);
    return 0;
}
