/* Plays files of vectors/requests over pitskhomu.h (vectors/README.md has their format):
 *     requests FILE..
 * A chain in memory holds each request and its reply buffer. The file system of the vectors answers
 * and prints each file call; the calls, the reply and the options are compared with the file's.
 * Each group is played as it is written and in its variants, by chains of several cuts. The last
 * line is `N passed, M failed`. */
#include "requests.h"
#include <errno.h>
#include <inttypes.h>
#include <stdio.h>
#include <stdlib.h>
#include <string.h>

enum { SIZE = 1024, DESC = 0, AVAIL = 0x4000, USED = 0x5000, REQUEST = 0x8000 };
enum { REPLY = REQUEST + ROOM, WHOLE = 2 * ROOM, PIECES = 400, BEHIND = 0x1000 };

/* ------------------------------------------------------------- a chain in memory */

_Alignas(4096) uint8_t memory[MEMORY];
struct pk_device device;
struct pk_chain chain;
static struct pk_queue queue;

static void put(size_t at, uint64_t value, size_t len) { memcpy(memory + at, &value, len); }

/* Writes descriptors of at most `cut` bytes each, from number `first` on, longer ones for more than
 * PIECES bytes. Returns their count. */
static size_t draw(size_t first, size_t at, size_t len, size_t cut, bool is_written) {
    size_t count = 0;
    if (len > PIECES) cut *= 1 + len / PIECES;
    for (size_t done = 0; done < len; done += cut, count++) {
        size_t d = DESC + 16 * (first + count), left = len - done;
        put(d, at + done, 8), put(d + 8, left < cut ? left : cut, 4);
        put(d + 12, is_written ? 3 : 1, 2), put(d + 14, first + count + 1, 2);
    }
    return count;
}

static const char *const faults[] = {"",
                                     "DecodeMessage",
                                     "EncodeMessage",
                                     "",
                                     "MissingParameter",
                                     "MissingExtension",
                                     "InvalidHeaderLength",
                                     "InvalidCString",
                                     "",
                                     "InvalidXattrSize"};

/* Serves the chain that is available. Returns the length of its reply. */
static size_t serve_chain(void) {
    static struct offered offered;
    struct pk_pop_result pop;
    struct pk_call call = {0};
    uint32_t element[2], status = take_chain(&chain, &queue, &offered, &pop);
    bool notify = false;
    if (status != PK_DONE || pop.fault) stop("%s:%u: %s", file, line, pk_status_name(status));
    status = ask(&chain, &device, request, load_front(&chain, &pop, request), &call);
    if (status != PK_DONE) stop("%s:%u: %s", file, line, pk_status_name(status));
    fault = faults[call.fault];
    if (!call.fault) perform(&call);
    status = give_back(&chain, &queue, NULL, &notify);
    if (status != PK_DONE) stop("%s:%u: %s", file, line, pk_status_name(status));
    memcpy(element, memory + USED + 4 + 8 * ((queue.next_used - 1) % SIZE), sizeof element);
    return element[1];
}

/* Serves the row's request by a chain whose parts have at most so many bytes. */
static size_t serve(const struct row *row, size_t cut, size_t reply_cut) {
    size_t count = draw(0, REQUEST, row->request.len, cut, false);
    count += draw(count, REPLY, row->buffer, reply_cut, true);
    memory[DESC + 16 * (count - 1) + 12] &= 2; /* the last one has no next */
    memset(memory + REQUEST, 0xff, row->request.len + BEHIND);
    memset(memory + REPLY, 0xff, row->buffer + BEHIND);
    memcpy(memory + REQUEST, row->request.at, row->request.len);
    put(AVAIL + 4 + 2u * (queue.next_avail % SIZE), 0, 2);
    put(AVAIL + 2, queue.next_avail + 1u, 2);
    mood = row->mood, *calls = 0;
    return serve_chain();
}

/* ------------------------------------------------------------- rows and their variants */

static unsigned passed, failed;

/* Opcodes that the library answers by ENOSYS, without a call: GETLK, SETLK, SETLKW, BMAP, IOCTL,
 * POLL, NOTIFY_REPLY, TMPFILE. */
static bool is_unserved(const struct row *row) {
    const uint8_t opcodes[] = {31, 32, 33, 37, 39, 40, 41, 51};
    return memchr(opcodes, row->request.at[4], sizeof opcodes) != NULL;
}

/* LOOKUP, SYMLINK, MKNOD, MKDIR, LINK, CREATE: whether the reply begins with an entry. */
static bool has_entry(const struct row *row) {
    const uint8_t opcodes[] = {1, 6, 8, 9, 13, 35}, none[4] = {0};
    return row->reply.len > PK_HEADER && !memcmp(row->reply.at + 4, none, 4) &&
           memchr(opcodes, row->request.at[4], sizeof opcodes);
}

static void set_error(struct row *row, uint32_t error) {
    static uint8_t reply[PK_HEADER];
    uint32_t head[] = {PK_HEADER, -error};
    memcpy(reply, head, sizeof head), memcpy(reply + sizeof head, row->request.at + 8, 8);
    row->reply = (struct bytes){.len = sizeof reply, .at = reply};
}

/* The call that forgets the node with which the reply begins. */
static void add_forget(struct row *row) {
    uint32_t who[3];
    uint64_t node;
    memcpy(who, row->request.at + 24, sizeof who);
    memcpy(&node, row->reply.at + PK_HEADER, sizeof node);
    sprintf(row->calls + strlen(row->calls), "forget %u %u %u %" PRIu64 " 1\n", who[0], who[1],
            who[2], node);
}

static void set_fault(struct row *row, const char *name) {
    row->reply.len = 0;
    snprintf(row->fault, NAME, "%s", name);
}

static struct row with(const struct row *written, enum variant variant) {
    struct row row = *written;
    row.has_agreed = written->has_agreed && (variant == SAME || variant == SHORT_BUFFER);
    switch (variant) {
    case SHORT_REQUEST: row.request.len--, *row.calls = 0, set_fault(&row, "DecodeMessage"); break;
    case SHORT_BUFFER:
        if (has_entry(written)) add_forget(&row);
        row.buffer--, set_fault(&row, "EncodeMessage");
        break;
    case FAILS: row.mood = FAILING, set_error(&row, EIO); break;
    case LACKS: row.mood = DEFAULT, set_error(&row, ENOSYS); break;
    default: break;
    }
    if (is_unserved(&row)) {
        *row.calls = 0;
        if (!*row.fault) set_error(&row, ENOSYS);
    }
    return row;
}

/* Makes word `k` of a call `?`. */
static void hide(char *call, unsigned k) {
    char copy[TEXT];
    while (k-- > 0) call = strchr(call, ' ') + 1;
    snprintf(copy, TEXT, "%s", call + strcspn(call, " \n"));
    sprintf(call, "?%s", copy);
}

/* Hides the arguments that the library doesn't pass on, in the calls that are expected. */
static void adapt(char *wanted) {
    for (char *call = wanted; *call; call = strchr(call, '\n') + 1) {
        if (!strncmp(call, "setattr ", 8)) hide(call, 7), hide(call, 8);
        if (!strncmp(call, "copy_file_range ", 16)) hide(call, 11);
    }
}

static void print_bytes(const uint8_t *bytes, size_t len) {
    for (size_t k = 0; k < len; k++) printf("%02x", bytes[k]);
}

static void play(const struct row *written, enum variant variant, size_t cut, size_t reply_cut) {
    struct row row = with(written, variant);
    char wanted[2 * TEXT];
    snprintf(wanted, sizeof wanted, "%s", row.calls);
    adapt(wanted);
    line = row.line;
    size_t len = serve(&row, cut, reply_cut);
    bool is_so = !strcmp(calls, wanted) && !strcmp(fault, row.fault) && len == row.reply.len &&
                 (len == 0 || !memcmp(memory + REPLY, row.reply.at, len)) &&
                 (!row.has_agreed || device.options == row.agreed);
    passed += is_so, failed += !is_so;
    if (is_so) return;
    printf("FAILED: %s:%u, %s, in pieces of %zu and %zu:\n%sreply ", file, row.line,
           variants[variant], cut, reply_cut, calls);
    print_bytes(memory + REPLY, len);
    printf(", fault %s, agreed %#" PRIx64 "\nin place of:\n", fault, device.options);
    printf("%sreply ", wanted);
    print_bytes(row.reply.at, row.reply.len);
    printf(", fault %s\n", row.fault);
}

static void begin(void) {
    device = (struct pk_device)PK_DEVICE;
    device.options = group.options;
    if (group.page_size) device.page_size = group.page_size;
}

/* A row whose reply begins with an entry: each cut of its buffer, and each shorter buffer. */
static void play_entry(const struct row *row) {
    begin();
    for (size_t cut = 1; cut < row->buffer; cut++)
        play(row, SAME, 39, cut), play(row, SHORT_BUFFER, 39, cut);
    for (struct row shorter = *row; shorter.buffer > 1;)
        shorter.buffer--, play(&shorter, SHORT_BUFFER, 39, WHOLE);
}

void play_group(void) {
    static const size_t cuts[][2] = {{WHOLE, WHOLE}, {1, 7}, {7, 39}, {39, 1}};
    unsigned read = line;
    group.has[SAME] = true;
    for (size_t cut = 0; cut < 4; cut++)
        for (enum variant v = SAME; v < VARIANTS; v++) {
            begin();
            for (size_t k = 0; group.has[v] && k < group.count; k++)
                play(&group.rows[k], v, cuts[cut][0], cuts[cut][1]);
        }
    for (size_t k = 0; group.has[SHORT_BUFFER] && k < group.count; k++)
        if (has_entry(&group.rows[k])) play_entry(&group.rows[k]);
    for (size_t k = 0; k < group.count; k++)
        free(group.rows[k].request.at), free(group.rows[k].reply.at);
    memset(&group, 0, sizeof group);
    line = read;
}

int main(int count, char **paths) {
    struct pk_region region = {.guest = 0, .len = MEMORY, .host = (uintptr_t)memory};
    queue = (struct pk_queue){.desc = DESC, .avail = AVAIL, .used = USED, .size = SIZE};
    begin();
    if (count < 2) stop("no file is named: requests FILE..");
    if (pk_queue_begin(&queue, 0) || pk_chain_set_memory(&chain, &device, &region, 1))
        stop("no queue, or no memory");
    for (int k = 1; k < count; k++) play_file(paths[k]);
    pk_chain_free(&chain);
    printf("%u passed, %u failed\n", passed, failed);
    return failed > 0;
}
