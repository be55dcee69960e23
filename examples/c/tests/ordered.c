/* give_back of access.c: the reply and the used element are in memory when the used index is stored
 * (VIRTIO 1.2, 2.7.8). The index lies at the end of a page that can't be written at first, and the
 * rest in other pages. So its store raises SIGSEGV, whose handler looks at the rest.
 * set_notification marks the used flags that it stores. */
#define _DEFAULT_SOURCE
#include "../access.h"
#include <signal.h>
#include <stdio.h>
#include <stdlib.h>
#include <string.h>
#include <sys/mman.h>

enum {
    PAGE = 0x1000,
    SIZE = 8,
    DESC = 0,
    AVAIL = 0x1000,
    INDEX_PAGE = 0x2000,
    USED = 0x2ffc,
    ELEMENT = USED + 4,
    REQUEST = 0x4000,
    REPLY = 0x4800,
    MEMORY = 0x5000,
    HEAD = 3
};

static uint8_t *memory;
static volatile sig_atomic_t was_in_order, stores;

static uint64_t number(size_t at, size_t len) {
    uint64_t value = 0;
    memcpy(&value, memory + at, len);
    return value;
}

static void put(size_t at, uint64_t value, size_t len) { memcpy(memory + at, &value, len); }

static void describe(unsigned index, uint64_t addr, uint32_t len, uint16_t flags, uint16_t next) {
    size_t at = DESC + 16 * (size_t)index;
    put(at, addr, 8);
    put(at + 8, len, 4);
    put(at + 12, flags, 2);
    put(at + 14, next, 2);
}

/* At the store of the index: the reply, a header with ENOSYS and the unique number 9, and the
 * element with its length are there. */
static void at_the_index(int raised) {
    (void)raised;
    stores++;
    was_in_order = number(REPLY, 4) == 16 && number(REPLY + 4, 4) == 0xffffffda &&
                   number(REPLY + 8, 8) == 9 && number(ELEMENT, 4) == HEAD &&
                   number(ELEMENT + 4, 4) == 16;
    mprotect(memory + INDEX_PAGE, PAGE, PROT_READ | PROT_WRITE);
}

static void expect(const char *what, uint64_t found, uint64_t wanted) {
    if (found == wanted) return;
    fprintf(stderr, "FAILED: %s: %llu, and not %llu\n", what, (unsigned long long)found,
            (unsigned long long)wanted);
    exit(1);
}

/* A chain is available, whose request has an opcode that FUSE doesn't have. */
static void offer(void) {
    describe(HEAD, REQUEST, 40, 1, 5);
    describe(5, REPLY, 64, 2, 0);
    put(REQUEST, 40, 4);
    put(REQUEST + 4, 7, 4);
    put(REQUEST + 8, 9, 8);
    put(AVAIL + 2, 1, 2);
    put(AVAIL + 4, HEAD, 2);
}

/* The index's page can't be written from here to the handler. */
static void guard(void) {
    if (signal(SIGSEGV, at_the_index) == SIG_ERR ||
        mprotect(memory + INDEX_PAGE, PAGE, PROT_READ) != 0)
        expect("a page that can't be written", 0, 1);
}

static struct pk_window marked;

static void mark(void *log, uintptr_t at, uint64_t len) {
    (void)log;
    marked = (struct pk_window){.at = at, .len = len};
}

static void silence(struct pk_chain *chain, const struct pk_queue *queue) {
    const struct marker marker = {mark, NULL};
    expect("a store", set_notification(chain, queue, false, &marker), true);
    expect("VIRTQ_USED_F_NO_NOTIFY", number(USED, 2), 1);
    expect("its mark", marked.at, (uintptr_t)memory + USED);
    expect("the bytes that are marked", marked.len, 2);
}

int main(void) {
    static uint8_t request[PK_REQUEST_MAX];
    static struct offered offered;
    struct pk_device device = PK_DEVICE;
    struct pk_queue queue = {.desc = DESC, .avail = AVAIL, .used = USED, .size = SIZE};
    struct pk_chain chain = {0};
    struct pk_pop_result step;
    struct pk_call call;
    bool notify = false;
    memory = mmap(NULL, MEMORY, PROT_READ | PROT_WRITE, MAP_PRIVATE | MAP_ANONYMOUS, -1, 0);
    if (memory == MAP_FAILED) expect("memory", 0, 1);
    struct pk_region region = {.guest = 0, .len = MEMORY, .host = (uintptr_t)memory};
    offer();
    expect("the queue", pk_queue_begin(&queue, 0), PK_DONE);
    expect("the regions", pk_chain_set_memory(&chain, &device, &region, 1), PK_DONE);
    silence(&chain, &queue);
    expect("the pop", take_chain(&chain, &queue, &offered, &step), PK_DONE);
    size_t len = load_front(&chain, &step, request);
    expect("the request", ask(&chain, &device, request, len, &call), PK_DONE);
    guard();
    expect("the push", give_back(&chain, &queue, NULL, &notify), PK_DONE);
    expect("the stores to the index's page", (uint64_t)stores, 1);
    expect("the reply and the element at the index's store", (uint64_t)was_in_order, 1);
    expect("the index", number(USED + 2, 2), 1);
    pk_chain_free(&chain);
    return 0;
}
