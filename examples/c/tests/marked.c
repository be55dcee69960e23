/* A migration's log has each page that was stored into (rule 7 of pitskhomu.h): a READ's data, too,
 * if the reply is an error, or the chain is abandoned. */
#include "../access.h"
#include <errno.h>
#include <linux/fuse.h>
#include <stdio.h>
#include <stdlib.h>
#include <string.h>

enum {
    PAGE = 0x1000,
    PAGES = 16,
    SIZE = 8,
    AVAIL = 0x1000,
    USED = 0x2000,
    REQUEST = 0x3000,
    ROOM = 0x4800, /* the header's page, and those of the data behind it */
    FIRST = ROOM / PAGE,
    DATA = 0x3000,
    LAST = (ROOM + 16 + DATA - 1) / PAGE
};

static _Alignas(PAGE) uint8_t memory[PAGES * PAGE];
static uint8_t request[PK_REQUEST_MAX];
static bool marked[PAGES];

static void mark(void *log, uintptr_t at, uint64_t len) {
    bool *pages = log;
    size_t from = at - (uintptr_t)memory;
    for (size_t page = from / PAGE; page * PAGE < from + len; page++) pages[page] = true;
}

static const struct marker marker = {mark, marked};

static void expect(const char *what, uint64_t found, uint64_t wanted) {
    if (found == wanted) return;
    fprintf(stderr, "FAILED: %s: %llu, and not %llu\n", what, (unsigned long long)found,
            (unsigned long long)wanted);
    exit(1);
}

static void put(size_t at, uint64_t value, size_t len) { memcpy(memory + at, &value, len); }

static void describe(unsigned index, uint64_t addr, uint32_t len, uint16_t flags, uint16_t next) {
    size_t at = 16 * (size_t)index;
    put(at, addr, 8);
    put(at + 8, len, 4);
    put(at + 12, flags, 2);
    put(at + 14, next, 2);
}

/* READ of DATA bytes. */
static void offer(uint16_t count) {
    struct fuse_in_header head = {.len = 80, .opcode = FUSE_READ, .unique = 9, .nodeid = 1};
    struct fuse_read_in in = {.size = DATA};
    memcpy(memory + REQUEST, &head, sizeof head);
    memcpy(memory + REQUEST + sizeof head, &in, sizeof in);
    describe(0, REQUEST, 80, 1, 1);
    describe(1, ROOM, 16 + DATA, 2, 0);
    put(AVAIL + 2, count, 2);
}

static void check_marks(const char *what) {
    for (size_t page = FIRST; page <= LAST; page++) expect(what, marked[page], 1);
    memset(marked, 0, sizeof marked);
}

/* Pops the READ, and puts its data. */
static void read_file(struct pk_chain *chain, struct pk_queue *queue, struct pk_call *call) {
    static const uint8_t data[DATA];
    static struct offered offered;
    struct pk_device device = PK_DEVICE;
    struct pk_pop_result step;
    offer((uint16_t)(queue->next_avail + 1));
    expect("the pop", take_chain(chain, queue, &offered, &step), PK_DONE);
    size_t len = load_front(chain, &step, request);
    expect("the request", ask(chain, &device, request, len, call), PK_DONE);
    expect("the room", call->data_len, DATA);
    put_data(chain, call->data_at, data, DATA, &marker);
}

int main(void) {
    struct pk_device device = PK_DEVICE;
    struct pk_queue queue = {.avail = AVAIL, .used = USED, .size = SIZE, .max_in_flight = 2};
    struct pk_chain chain = {0};
    struct pk_call call;
    struct pk_region region = {.guest = 0, .len = sizeof memory, .host = (uintptr_t)memory};
    bool notify = false;
    expect("the queue", pk_queue_begin(&queue, 0), PK_DONE);
    expect("the regions", pk_chain_set_memory(&chain, &device, &region, 1), PK_DONE);

    read_file(&chain, &queue, &call);
    expect("the data", pk_reply_data(&chain, call.ticket, DATA), PK_DONE);
    expect("the push", give_back(&chain, &queue, &marker, &notify), PK_DONE);
    check_marks("the pages of a reply");

    read_file(&chain, &queue, &call);
    expect("the error", pk_reply_err(&chain, call.ticket, EIO), PK_DONE);
    expect("the push", give_back(&chain, &queue, &marker, &notify), PK_DONE);
    check_marks("the pages of data that the reply doesn't have");

    read_file(&chain, &queue, &call);
    pk_abandon(&chain);
    check_marks("the pages of data of a chain that is abandoned");
    pk_chain_free(&chain);
    return 0;
}
