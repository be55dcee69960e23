/* The cost of a chain by the library, with plain loads and stores:
 *     cost [CHAINS]
 * prints for each kind of request the least of nine runs, in nanoseconds for a chain. Requests are
 * cut as a Linux guest cuts them: header, arguments and data in pieces of their own, by direct
 * descriptors. One has 130 descriptors in a table, as a READ of 512 KiB; others are short ones in a
 * table. Answers and data need no time. One chain is in flight at a time, or four or sixteen of a
 * queue, each with its own handle: all are popped, then answered, then pushed. */
#define _POSIX_C_SOURCE 200809L
#include "../access.h"
#include <stdio.h>
#include <stdlib.h>
#include <string.h>
#include <time.h>

enum {
    SIZE = 256,
    DESC = 0x1000,
    AVAIL = 0x2000,
    USED = 0x3000,
    REQUEST = 0x4000,
    ROOM = 0x6000,
    TABLE = 0x8000,
    END = 0x10000,
    PAGE = 4096
};
enum {
    NEXT = 1,
    WRITE = 2,
    INDIRECT = 4,
    RUNS = 9,
    PIECES = 3,
    DATA = 4096,
    ENTRY = 16,
    MOST_OUT = 16
};

static _Alignas(4096) uint8_t memory[END];
static uint8_t file[DATA];
static struct pk_ring ring; /* of the queue */
static struct pk_iotlb iotlb;
static unsigned long mappings; /* 0: no table */
static struct pk_region mapped[END / PAGE]; /* what the table maps, in this process */

/* A kind of request: its pieces and those of its reply buffer (0: none), the pages that follow
 * these in a table (0: no table), and its answer. */
struct row {
    const char *name;
    uint32_t opcode;
    size_t request[PIECES], room[PIECES], pages;
    uint32_t (*answer)(struct pk_chain *, const struct pk_call *);
    size_t out; /* chains in flight at a time */
};

/* The guest address of an I/O address: with a mapping for each page, pages are exchanged by pairs,
 * so that the table joins none. */
static size_t place(size_t at) { return mappings > 1 ? at ^ PAGE : at; }

static void put(size_t at, uint64_t value, size_t len) {
    for (size_t k = 0; k < len; k++) memory[place(at) + k] = (uint8_t)(value >> 8 * k);
}

static void make_table(void) {
    if (mappings == 0) return;
    size_t len = mappings == 1 ? END : PAGE;
    if (mappings > END / PAGE || pk_iotlb_new(&iotlb)) abort();
    for (size_t k = 0; k < mappings; k++) {
        if (pk_iotlb_map(&iotlb, len * k, len, place(len * k), PK_ACCESS_READ_WRITE)) abort();
        mapped[k] = (struct pk_region){len * k, len, (uintptr_t)memory + place(len * k)};
    }
}

/* Lends the table to a chain, or takes it back: one chain is out at a time then. */
static void lend(struct pk_chain *chain) {
    if (mappings > 0 && pk_chain_exchange_iotlb(chain, &iotlb)) abort();
}

static uint32_t answer_none(struct pk_chain *chain, const struct pk_call *call) {
    (void)chain;
    return call->kind == PK_CALL_NONE ? PK_DONE : PK_OTHER_KIND;
}

static uint32_t answer_attr(struct pk_chain *chain, const struct pk_call *call) {
    struct pk_attr attr = {.ino = call->node, .mode = 0100644, .nlink = 1};
    return pk_reply_attr(chain, call->ticket, &attr, 1, 0);
}

static uint32_t answer_entry(struct pk_chain *chain, const struct pk_call *call) {
    struct pk_entry entry = {.node = call->node + 1,
                             .attr = {.ino = 2, .mode = 0100644, .nlink = 1}};
    return pk_reply_entry(chain, call->ticket, &entry);
}

static uint32_t answer_read(struct pk_chain *chain, const struct pk_call *call) {
    scatter(chain, PK_HEADER, file, call->size);
    return pk_reply_data(chain, call->ticket, call->size);
}

static uint32_t answer_write(struct pk_chain *chain, const struct pk_call *call) {
    struct pk_window windows[PIECES];
    size_t count = pk_request_windows(chain, call->data_at, call->data_len, windows, PIECES),
           done = 0;
    for (size_t k = 0; k < count; done += windows[k++].len)
        memcpy(file + done, (const uint8_t *)memory + (windows[k].at - (uintptr_t)memory),
               windows[k].len);
    return pk_reply_write(chain, call->ticket, (uint32_t)done);
}

static const struct row rows[] = {
    {"unknown opcode", 0x7777, {40}, {16}, 0, answer_none, 1},
    {"GETATTR", 3, {40, 16}, {16, 104}, 0, answer_attr, 1},
    {"LOOKUP", 1, {40, 5}, {16, 128}, 0, answer_entry, 1},
    {"READ 4 KiB", 15, {40, 40}, {16, DATA}, 0, answer_read, 1},
    {"WRITE 4 KiB", 16, {40, 40, DATA}, {16, 8}, 0, answer_write, 1},
    {"130 descriptors in a table", 0x7777, {40}, {16}, 128, answer_none, 1},
    {"GETATTR in a table, a page more", 3, {40, 16}, {16, 104}, 1, answer_attr, 1},
    {"LOOKUP in a table, a page more", 1, {40, 5}, {16, 128}, 1, answer_entry, 1},
    {"LOOKUP, four out", 1, {40, 5}, {16, 128}, 0, answer_entry, 4},
    {"LOOKUP, sixteen out", 1, {40, 5}, {16, 128}, 0, answer_entry, MOST_OUT},
    {"READ 4 KiB, four out", 15, {40, 40}, {16, DATA}, 0, answer_read, 4},
    {"READ 4 KiB, sixteen out", 15, {40, 40}, {16, DATA}, 0, answer_read, MOST_OUT},
};

/* Writes the descriptor of an index in a table. */
static void lay_entry(size_t table, size_t index, size_t at, size_t len, uint16_t flags) {
    size_t entry = table + ENTRY * index;
    put(entry, at, 8);
    put(entry + 8, len, 4);
    put(entry + 12, flags, 2);
    put(entry + 14, flags & NEXT ? index + 1 : 0, 2);
}

/* Writes the descriptors of one direction, each piece 16 bytes after the one before. Returns the
 * index after the last. */
static size_t lay_pieces(size_t table, const size_t pieces[PIECES], size_t index, size_t at,
                         uint16_t flags, bool ends) {
    for (size_t k = 0; k < PIECES && pieces[k]; k++, index++) {
        bool last = ends && (k + 1 == PIECES || !pieces[k + 1]);
        lay_entry(table, index, at, pieces[k], (uint16_t)(last ? flags : flags | NEXT));
        at += pieces[k] + 16;
    }
    return index;
}

/* Writes a chain: direct, or in a table that one descriptor names. */
static void lay_chain(const struct row *row) {
    size_t table = row->pages ? TABLE : DESC;
    size_t index = lay_pieces(table, row->request, 0, REQUEST, 0, false);
    index = lay_pieces(table, row->room, index, ROOM, WRITE, !row->pages);
    for (size_t k = 1; k <= row->pages; k++, index++)
        lay_entry(table, index, ROOM, DATA, (uint16_t)(k < row->pages ? WRITE | NEXT : WRITE));
    if (row->pages) lay_entry(DESC, 0, TABLE, ENTRY * index, INDIRECT);
}

/* Writes a request: its header, and after it zeros, a name, or the numbers of a transfer of one
 * page. */
static void lay_request(const struct row *row) {
    size_t len = 0, record = REQUEST + 40 + 16;
    for (size_t k = 0; k < PIECES; k++) len += row->request[k];
    memset(memory + REQUEST, 0, ROOM - REQUEST);
    put(REQUEST, len, 4);
    put(REQUEST + 4, row->opcode, 4);
    put(REQUEST + 8, 7, 8);
    put(REQUEST + 16, 1, 8);
    if (row->answer == answer_entry) memcpy(memory + place(record), "file", 5);
    if (row->answer == answer_read || row->answer == answer_write) put(record + 16, DATA, 4);
    lay_chain(row);
}

static void serve_next(const struct row *row, struct pk_chain *chains, struct pk_queue *queue,
                       const struct pk_device *device) {
    struct pk_pop_result steps[MOST_OUT];
    struct pk_call call;
    uint8_t request[PK_FIRST];
    bool notify = false;
    put(AVAIL + 2, (uint16_t)(queue->next_avail + row->out), 2);
    lend(chains);
    for (size_t k = 0; k < row->out; k++)
        if (pk_pop_ring(&chains[k], queue, &ring, &steps[k])) abort();
    for (size_t k = 0; k < row->out; k++)
        if (ask(&chains[k], device, request, load_front(&chains[k], &steps[k], request), &call) ||
            row->answer(&chains[k], &call))
            abort();
    lend(chains); /* it comes back */
    lend(chains);
    for (size_t k = 0; k < row->out; k++)
        if (give_back(&chains[k], queue, NULL, &notify)) abort();
    lend(chains);
}

static double measure(const struct row *row, struct pk_chain *chains, struct pk_queue *queue,
                      const struct pk_device *device, long count) {
    struct timespec from, to;
    long rounds = (count + (long)row->out - 1) / (long)row->out;
    clock_gettime(CLOCK_MONOTONIC, &from);
    for (long k = 0; k < rounds; k++) serve_next(row, chains, queue, device);
    clock_gettime(CLOCK_MONOTONIC, &to);
    double nanoseconds =
        (double)(to.tv_sec - from.tv_sec) * 1e9 + (double)(to.tv_nsec - from.tv_nsec);
    return nanoseconds / (double)(rounds * (long)row->out);
}

static void print_row(const struct row *row, struct pk_chain *chains, struct pk_queue *queue,
                      const struct pk_device *device, long count) {
    double least = 0;
    lay_request(row);
    for (int k = 0; k < RUNS; k++) {
        double next = measure(row, chains, queue, device, count);
        if (k == 0 || next < least) least = next;
    }
    printf("%s: %.0f nanoseconds a chain\n", row->name, least);
}

int main(int argc, char **argv) {
    long count = argc > 1 ? atol(argv[1]) : 100000, only = argc > 3 ? atol(argv[3]) : -1;
    struct pk_chain chains[MOST_OUT] = {{0}};
    struct pk_device device = {.page_size = 4096, .limit = 0x101000};
    struct pk_region region = {0, sizeof memory, (uintptr_t)memory};
    struct pk_queue queue = {
        .size = SIZE, .desc = DESC, .avail = AVAIL, .used = USED, .max_in_flight = MOST_OUT};
    mappings = argc > 2 ? strtoul(argv[2], NULL, 10) : 0;
    make_table();
    if (pk_queue_begin(&queue, 0)) return 1;
    pk_ring_find(&ring, &queue, mappings ? mapped : &region, mappings ? mappings : 1);
    for (size_t k = 0; k < MOST_OUT; k++)
        if (count < 1 || pk_chain_set_memory(&chains[k], &device, &region, 1)) return 1;
    for (long at = 0; at < (long)(sizeof rows / sizeof *rows); at++)
        if ((only < 0 || only == at) && (mappings == 0 || rows[at].out == 1))
            print_row(&rows[at], chains, &queue, &device, count);
    for (size_t k = 0; k < MOST_OUT; k++) pk_chain_free(&chains[k]);
    pk_iotlb_free(&iotlb);
    return 0;
}
