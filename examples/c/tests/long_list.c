/* pk_pop_ahead takes a list of 10,000 loads on a thread whose stack has 64 KiB: the stack that a
 * call needs does not grow with the list. */
#include <pitskhomu.h>
#include <pthread.h>
#include <stdio.h>
#include <stdlib.h>
#include <string.h>

enum { SIZE = 16384, DESC = 0, AVAIL = 0x40000, USED = 0x50000, BUFFERS = 0x80000 };
enum { MEMORY = 0x90000, STACK = 0x10000 };
enum { LOADS = 10000, LINKS = LOADS - 2, REPLY = 16 }; /* the ring takes the first two loads */
enum { FOLLOWED = 1, WRITE = 2 };                      /* flags of a descriptor */

static _Alignas(4096) uint8_t memory[MEMORY];
static const struct pk_region region = {.guest = 0, .len = MEMORY, .host = (uintptr_t)memory};
static struct pk_device device = PK_DEVICE;
static struct pk_queue queue = {
    .desc = DESC, .avail = AVAIL, .used = USED, .size = SIZE, .max_in_flight = SIZE};
static struct pk_chain chain;
static struct pk_load_ahead ahead[LOADS];
static uint8_t bytes[LOADS * 64]; /* 64 is the most of a load of the descriptor table */
static size_t count, len;

static void expect(const char *what, uint64_t found, uint64_t wanted) {
    if (found == wanted) return;
    fprintf(stderr, "FAILED: %s: %llu, and not %llu\n", what, (unsigned long long)found,
            (unsigned long long)wanted);
    exit(1);
}

static void put(size_t at, uint64_t value, size_t n) { memcpy(memory + at, &value, n); }

/* A chain through the table from its last entry to its first: no load has two of its entries. All
 * but the first entry are a byte of the request each. */
static void lay_chain(void) {
    for (size_t k = 0; k < LINKS; k++) {
        put(DESC + 16 * k, BUFFERS + k, 8);
        put(DESC + 16 * k + 8, k ? 1 : REPLY, 4);
        put(DESC + 16 * k + 12, k ? FOLLOWED : WRITE, 2);
        put(DESC + 16 * k + 14, k ? k - 1 : 0, 2);
    }
    put(AVAIL + 4, LINKS - 1, 2);
    put(AVAIL + 2, 1, 2);
}

/* Pops load by load, and notes the loads. The handle has room for all descriptors then. */
static void note_loads(void) {
    struct pk_pop_result pop;
    uint32_t status = pk_pop(&chain, &queue, bytes, 0, &pop);
    while (status == PK_LOAD && count < LOADS && pop.load_len <= sizeof bytes - len) {
        uint8_t *loaded = bytes + len;
        memcpy(loaded, (const void *)pop.load_at, pop.load_len);
        ahead[count++] = (struct pk_load_ahead){pop.load_at, pop.load_len};
        len += pop.load_len;
        status = pk_pop(&chain, &queue, loaded, pop.load_len, &pop);
    }
    expect("load by load", status, PK_DONE);
    expect("the loads", count, LOADS);
}

static void *pop_by_list(void *unused) {
    struct pk_pop_result pop;
    (void)unused;
    expect("by the list", pk_pop_ahead(&chain, &queue, ahead, count, bytes, len, &pop), PK_DONE);
    expect("the head", pop.head, LINKS - 1);
    expect("the fault", pop.fault, 0);
    expect("the request", pop.request_len, LINKS - 1);
    expect("the reply", pop.reply_len, REPLY);
    return NULL;
}

int main(void) {
    pthread_attr_t small;
    pthread_t thread;
    lay_chain();
    expect("the memory", pk_chain_set_memory(&chain, &device, &region, 1), PK_DONE);
    expect("the ticket", pk_chain_set_ticket(&chain, 1), PK_DONE);
    expect("the queue", pk_queue_begin(&queue, 0), PK_DONE);
    note_loads();
    expect("undone", pk_drop(&chain, &queue), PK_DONE);
    expect("a stack", (uint64_t)pthread_attr_init(&small), 0);
    expect("its size", (uint64_t)pthread_attr_setstacksize(&small, STACK), 0);
    expect("a thread", (uint64_t)pthread_create(&thread, &small, pop_by_list, NULL), 0);
    expect("its end", (uint64_t)pthread_join(thread, NULL), 0);
    pthread_attr_destroy(&small);
    pk_chain_free(&chain);
    printf("long_list: %zu loads\n", count);
    return 0;
}
