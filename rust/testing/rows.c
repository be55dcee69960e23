/* What a request costs by a daemon, without a guest: rows DAEMON DIR COUNT [ROW AT_ONCE [BETWEEN]].
 * All rows, one (from 0 on), or the `small` ones; one at a time (1), several at once (0) or `both`;
 * with so many microseconds between (0). Requests as a Linux guest cuts them: header, arguments,
 * data, the reply's header and its data in pieces of their own, which a table of the request's own
 * names. Prints for each kind the least of five runs of COUNT requests, in nanoseconds for a
 * request: with the driver's kicks and sleeps, without the time between requests. And of all five
 * what the daemon took of the processor for a request, and how often for a thousand of them one
 * side told the other. DIR gets a file `rows`. */
#define _POSIX_C_SOURCE 200809L
#include "front.h"
#include <fcntl.h>
#include <linux/fuse.h>
#include <stdio.h>
#include <stdlib.h>
#include <string.h>
#include <time.h>
#include <unistd.h>

enum {
    RING = 1,
    ROOT = 1,
    RUNS = 5,
    LARGE = 1 << 19,
    MIDDLE = 1 << 16,
    SLOT = 0x2000,
    TOO_LONG = 60000,
    UNKNOWN = 0x7777,
    READ = 3, /* of the rows: 4 KiB */
    LONG = 100, /* microseconds: the driver sleeps */
    SHARE = 10 /* and of these a row takes a part more of its time, and asks so much less */
};

/* A kind of request: how many bytes go one way or the other, and how many are asked at once. */
struct row {
    const char *name;
    uint32_t opcode, data;
    unsigned most_at_once;
};

static const struct row rows[] = {
    {"unknown opcode", UNKNOWN, 0, 32},       {"GETATTR", FUSE_GETATTR, 104, 32},
    {"LOOKUP", FUSE_LOOKUP, 128, 32},         {"READ 4 KiB", FUSE_READ, 4096, 32},
    {"WRITE 4 KiB", FUSE_WRITE, 4096, 32},    {"READ 64 KiB", FUSE_READ, MIDDLE, 16},
    {"WRITE 64 KiB", FUSE_WRITE, MIDDLE, 16}, {"READ 512 KiB", FUSE_READ, LARGE, 4},
    {"WRITE 512 KiB", FUSE_WRITE, LARGE, 4},
};

static struct front front;
static uint64_t node, file;

/* The arguments behind a request's header. */
static size_t put_arguments(const struct row *row, uint8_t *at) {
    struct fuse_read_in read_in = {.fh = file, .size = row->data};
    struct fuse_write_in write_in = {.fh = file, .size = row->data};
    switch (row->opcode) {
    case FUSE_GETATTR:
        memset(at, 0, sizeof(struct fuse_getattr_in));
        return sizeof(struct fuse_getattr_in);
    case FUSE_LOOKUP: memcpy(at, "rows", 5); return 5;
    case FUSE_READ: memcpy(at, &read_in, sizeof read_in); return sizeof read_in;
    case FUSE_WRITE: memcpy(at, &write_in, sizeof write_in); return sizeof write_in;
    default: return 0;
    }
}

/* Draws request `k`: descriptor `k` of the ring has a table of its own, as Linux has it. */
static void draw(const struct row *row, unsigned k) {
    uint64_t at = request_at(RING) + SLOT * k, data = room_at(RING) + row->data * (uint64_t)k,
             table = at + SLOT / 4;
    uint8_t *request = front_at(&front, at);
    bool is_write = row->opcode == FUSE_WRITE;
    struct fuse_in_header head = {
        .opcode = row->opcode, .unique = k + 1, .nodeid = row->opcode == FUSE_LOOKUP ? ROOT : node};
    size_t len = put_arguments(row, request + sizeof head);
    unsigned next = 0;
    head.len = (uint32_t)(sizeof head + len) + (is_write ? row->data : 0);
    memcpy(request, &head, sizeof head);
    put_descriptor(&front, table, next, at, sizeof head, 1, next + 1), next++;
    if (len > 0)
        put_descriptor(&front, table, next, at + sizeof head, (uint32_t)len, 1, next + 1), next++;
    if (is_write) put_descriptor(&front, table, next, data, row->data, 1, next + 1), next++;
    uint32_t behind = is_write ? sizeof(struct fuse_write_out) : row->data;
    put_descriptor(&front, table, next, at + SLOT / 2, sizeof(struct fuse_out_header),
                   behind ? 3 : 2, next + 1),
        next++;
    if (behind)
        put_descriptor(&front, table, next, is_write ? at + SLOT / 2 + 64 : data, behind, 2, 0),
            next++;
    put_descriptor(&front, desc_at(RING), k, table, 16 * next, 4, 0);
}

/* Whether request `k` was answered as it should be. */
static bool is_answered(const struct row *row, unsigned k) {
    struct fuse_out_header out;
    uint32_t behind = row->opcode == FUSE_WRITE ? sizeof(struct fuse_write_out) : row->data;
    memcpy(&out, front_at(&front, request_at(RING) + SLOT * k + SLOT / 2), sizeof out);
    if (row->opcode == UNKNOWN) return out.error == -38; /* ENOSYS */
    return out.error == 0 && out.unique == k + 1 && out.len == sizeof out + behind;
}

/* The driver has other work for so many microseconds, or sleeps, if that is long. */
static void do_other_work(unsigned microseconds) {
    double end = front_now() + microseconds * 1e3;
    struct timespec time = {microseconds / 1000000, microseconds % 1000000 * 1000};
    if (microseconds >= LONG) nanosleep(&time, NULL);
    while (front_now() < end) {
    }
}

/* Nanoseconds for a request, of `turns` times `at_once`. */
static double measure(const struct row *row, unsigned turns, unsigned at_once, unsigned between) {
    double time = 0;
    for (unsigned turn = 0; turn < turns; turn++) {
        do_other_work(between);
        double from = front_now();
        for (unsigned k = 0; k < at_once; k++) front_offer(&front, RING, (uint16_t)k);
        front_kick(&front, RING);
        if (!front_wait(&front, RING, TOO_LONG)) die("%s isn't answered", row->name);
        time += front_now() - from;
    }
    for (unsigned k = 0; k < at_once; k++)
        if (!is_answered(row, k)) die("%s is answered otherwise", row->name);
    return time / turns / at_once;
}

/* How often the device was told, and told, with what the driver didn't wait for. */
static struct front_ring counted(void) {
    struct front_ring ring = front.rings[RING];
    uint64_t word;
    if (read(ring.call, &word, sizeof word) > 0) ring.calls += word;
    return ring;
}

/* How a row is asked: so many requests at once, microseconds between, and for how many microseconds
 * the driver looks before it sleeps. */
struct way {
    unsigned at_once, between, looks;
};

/* Prints a number of a row, and what it is of. */
static void print(const char *word, double number, const char *unit, const struct row *row,
                  struct way way) {
    printf("%s %.0f %s: %s, %u at once", word, number, unit, row->name, way.at_once);
    if (way.between) printf(", %u us between", way.between);
    printf(way.looks ? ", the driver looks for %u us\n" : "\n", way.looks);
}

static void print_row(const struct row *row, unsigned count, struct way way) {
    unsigned turns = (row->data >= MIDDLE ? count / 16 : count) / way.at_once;
    double least = 0, processor = front_processor(&front);
    struct front_ring before = counted();
    if (turns == 0) turns = 1;
    front.looks = way.looks;
    for (unsigned k = 0; k < way.at_once; k++) draw(row, k);
    for (int run = 0; run < RUNS; run++) {
        double next = measure(row, turns, way.at_once, way.between);
        if (run == 0 || next < least) least = next;
    }
    struct front_ring after = counted();
    double requests = (double)RUNS * turns * way.at_once;
    processor = front_processor(&front) - processor;
    front.looks = 0;
    print("ROW", least, "ns", row, way);
    print("PROCESSOR", processor * 1e6 / requests, "ns", row, way);
    print("KICKS", (double)(after.kicks - before.kicks) * 1e3 / requests, "of 1000", row, way);
    print("CALLS", (double)(after.calls - before.calls) * 1e3 / requests, "of 1000", row, way);
}

/* A file of which READ has enough, and whose pages the host has. */
static void make_file(const char *dir) {
    char path[4096];
    static const uint8_t bytes[LARGE];
    snprintf(path, sizeof path, "%s/rows", dir);
    FILE *made = fopen(path, "w");
    if (!made || fwrite(bytes, sizeof bytes, 1, made) != 1 || fclose(made))
        die("%s isn't made", path);
}

/* READ of 4 KiB, with time between requests, in which the guest does other work or sleeps. */
static void print_between(unsigned count) {
    static const struct way ways[] = {{1, 20, 0}, {1, 50, 0}, {1, 300, 0}, {1, 1000, 0},
                                      {1, 20, 200}};
    for (size_t k = 0; k < sizeof ways / sizeof *ways; k++)
        print_row(&rows[READ], count / (1 + ways[k].between / SHARE), ways[k]);
}

/* Whether a row is asked for by `which`. */
static bool is_wanted(const char *which, size_t k) {
    if (!which) return true;
    return strcmp(which, "small") ? strtoul(which, NULL, 10) == k : rows[k].data < MIDDLE;
}

int main(int argc, char **argv) {
    const char *which = argc > 4 ? argv[4] : NULL, *ways = argc > 5 ? argv[5] : "both";
    if (argc != 4 && argc != 6 && argc != 7)
        die("usage: rows DAEMON DIR COUNT [ROW AT_ONCE [BETWEEN]]");
    unsigned count = (unsigned)strtoul(argv[3], NULL, 10);
    unsigned between = argc == 7 ? (unsigned)strtoul(argv[6], NULL, 10) : 0;
    make_file(argv[2]);
    front_begin(&front, argv[1], argv[2], NULL);
    front_set_up(&front);
    front_start_ring(&front, RING, 0);
    begin_session(&front);
    node = look_up(&front, ROOT, "rows");
    file = open_node(&front, node, O_RDWR);
    for (size_t k = 0; k < sizeof rows / sizeof *rows; k++) {
        if (!is_wanted(which, k)) continue;
        struct way one = {1, between, 0}, several = {rows[k].most_at_once, between, 0};
        if (strcmp(ways, "0")) print_row(&rows[k], count, one);
        if (strcmp(ways, "1")) print_row(&rows[k], count, several);
    }
    if (argc == 4) print_between(count);
    front_leave(&front);
    return 0;
}
