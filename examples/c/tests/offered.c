/* take_chain of access.c loads the available index again only after all chains up to the last one
 * were popped. A guest that changes the index meanwhile is refused then, and not before. The test
 * counts no loads: a pop's result shows which index it used. */
#include "../access.h"
#include <stdio.h>
#include <stdlib.h>
#include <string.h>

enum {
    SIZE = 8,
    DESC = 0x1000,
    AVAIL = 0x2000,
    USED = 0x3000,
    ROOM = 0x4000,
    MEMORY = 0x5000,
    HEAD = 5
};

/* the guest's, from its address 0 on, at two places */
static _Alignas(4096) uint8_t memory[MEMORY], moved[MEMORY];
static struct pk_device device = PK_DEVICE;
static struct pk_queue queue = {.desc = DESC, .avail = AVAIL, .used = USED, .size = SIZE};
static struct offered offered;
static struct pk_chain chain;
static struct pk_pop_result step;

static void expect(const char *what, uint64_t found, uint64_t wanted) {
    if (found == wanted) return;
    fprintf(stderr, "FAILED: %s: %llu, and not %llu\n", what, (unsigned long long)found,
            (unsigned long long)wanted);
    exit(1);
}

static void put(size_t at, uint64_t value, size_t len) { memcpy(memory + at, &value, len); }

static void set_index(uint16_t index) { put(AVAIL + 2, index, 2); }

static void work_over(const uint8_t *bytes) {
    struct pk_region region = {.guest = 0, .len = MEMORY, .host = (uintptr_t)bytes};
    expect("the memory", pk_chain_set_memory(&chain, &device, &region, 1), PK_DONE);
}

static uint32_t take(void) { return take_chain(&chain, &queue, &offered, &step); }

/* Pops the next chain, and pushes it without a reply. */
static void serve(const char *what) {
    bool notify = false;
    expect(what, take(), PK_DONE);
    expect("the head", step.head, HEAD);
    expect("the reply", pk_reply_bytes(&chain, step.ticket, 0), PK_DONE);
    expect("the return", give_back(&chain, &queue, NULL, &notify), PK_DONE);
}

/* The queue starts at a position, with so many chains available. */
static void begin(uint16_t position, uint16_t waiting) {
    expect("the beginning", pk_queue_begin(&queue, position), PK_DONE);
    set_index((uint16_t)(position + waiting));
}

static void loads_once_for_all(void) {
    begin(0xfffe, 4); /* positions wrap */
    serve("the first of four");
    set_index((uint16_t)(queue.next_avail + SIZE + 1));
    for (int k = 0; k < 3; k++) serve("the others, while the index goes too far");
    set_index((uint16_t)(queue.next_avail + 2));
    serve("the first of two that were offered later");
    set_index(queue.next_avail);
    serve("the other one, while the index is back");
    set_index(queue.next_avail);
    expect("none", take(), PK_IDLE);
    set_index((uint16_t)(queue.next_avail + 1));
    serve("one behind an empty queue");
    expect("none", take(), PK_IDLE);
}

/* Once all known chains are popped, the guest's index counts. */
static void refuses_by_the_next_load(void) {
    const uint16_t wrong[] = {SIZE + 1, 0x8000, 0xffff};
    for (size_t k = 0; k < sizeof wrong / sizeof *wrong; k++) {
        begin(7, 2);
        serve("the first of two");
        set_index((uint16_t)(9 + wrong[k]));
        serve("the second one");
        expect("too far, or back", take(), PK_AVAIL_TOO_FAR);
        expect("a queue that is stopped", take(), PK_STOPPED);
    }
}

/* After a reset, or in other memory, the index is loaded again. */
static void forgets_what_was(void) {
    begin(7, 3);
    serve("the first of three");
    begin(8, 0);
    expect("none since the beginning", take(), PK_IDLE);
    begin(8, 3);
    serve("the first of three");
    memcpy(moved, memory, MEMORY);
    moved[AVAIL + 2] = 9;
    work_over(moved);
    expect("none in the other memory", take(), PK_IDLE);
    work_over(memory);
    serve("the second one");
}

/* A dropped chain is popped again by the known index. */
static void takes_again(void) {
    begin(100, 2);
    serve("the first of two");
    expect("the second one", take(), PK_DONE);
    set_index((uint16_t)(queue.next_avail + SIZE + 1));
    expect("its drop", pk_drop(&chain, &queue), PK_DONE);
    serve("the second one again");
    expect("too far", take(), PK_AVAIL_TOO_FAR);
}

/* Threads share one `offered`. By one of its own, which another thread's load has overtaken, a
 * thread would stop the queue. */
static void threads_share_it(void) {
    struct offered own;
    begin(7, 2);
    serve("the first of two");
    own = offered;
    set_index(11);
    for (int k = 0; k < 3; k++) serve("up to the fourth");
    set_index(12);
    serve("the fifth, by the shared index");
    offered = own;
    expect("the sixth, by an older index", take(), PK_AVAIL_TOO_FAR);
}

int main(void) {
    work_over(memory);
    put(DESC + 16 * HEAD, ROOM, 8), put(DESC + 16 * HEAD + 8, 16, 4),
        put(DESC + 16 * HEAD + 12, 2, 2);
    for (size_t k = 0; k < SIZE; k++) put(AVAIL + 4 + 2 * k, HEAD, 2);
    loads_once_for_all();
    refuses_by_the_next_load();
    forgets_what_was();
    takes_again();
    threads_share_it();
    pk_chain_free(&chain);
    printf("offered chains: the index is loaded once for all its chains\n");
    return 0;
}
