/* Failed allocations: one script of calls of pitskhomu.h is played with each of its requests for
 * memory refused in turn: that one alone, and that one with those after it until the call ends.
 * Then the call, and no other, returns PK_OUT_OF_MEMORY (pk_restore: PK_RECORD_OUT_OF_MEMORY), and
 * it changed nothing: neither the memory that it was lent nor the handle, as far as that can be
 * seen. Made again, it and all calls after it do the same as without a refused request. A call for
 * which pitskhomu.h doesn't name that status requests no memory. Three more handles have a chain
 * of the same queue in flight. */
#include "watched.h"
#include <linux/fuse.h>
#include <stdio.h>
#include <stdlib.h>
#include <string.h>

/* ------------------------------------------------------------- the guest */

static uint8_t *at(uint64_t guest) {
    return now.pages + (guest < BOUND ? now.low * PAGE + guest : HIGH * PAGE + (guest - BOUND));
}

static void put(uint64_t guest, uint64_t value, size_t len) {
    for (size_t k = 0; k < len; k++) *at(guest + k) = (uint8_t)(value >> 8 * k);
}

static void put_descriptor(uint64_t table, unsigned k, uint64_t addr, uint64_t len,
                           uint64_t flags) {
    put(table + 16 * (uint64_t)k, addr, 8);
    put(table + 16 * (uint64_t)k + 8, len, 4);
    put(table + 16 * (uint64_t)k + 12, flags, 2);
    put(table + 16 * (uint64_t)k + 14, flags & 1 ? k + 1 : 0, 2);
}

/* A request, and its file call. `words` and `bytes` follow its header. */
struct row {
    const char *name;
    uint32_t opcode, kind, answer;
    size_t word_count, byte_count;
    uint32_t words[16];
    const char *bytes;
    uint64_t options; /* the device's */
    /* whether it lies in many pieces, by a table; whether it is dropped once it was popped */
    bool is_wide, slips;
};

#define ROW(name, answer) #name, FUSE_##name, PK_CALL_##name, PK_ANSWER_##answer
#define WORDS(count, ...) .word_count = count, .words = {__VA_ARGS__}
#define BYTES(text) .bytes = text, .byte_count = sizeof text
/* fuse_secctx_header, fuse_secctx, name, value */
#define LABEL "\x17\0\0\0\1\0\0\0\5\0\0\0\0\0\0\0s\0mine"

static const struct row rows[] = {
    {ROW(RENAME, DONE), WORDS(2, 2), BYTES("so long a name that more is loaded\0the other name"),
     .is_wide = true},
    {ROW(INIT, INIT), WORDS(16, 7, 38, 4096)},
    {ROW(SETXATTR, DONE), WORDS(2, 6), BYTES("user.name\0value"), .slips = true},
    {ROW(CREATE, CREATE), WORDS(4, 0102, 0100644), BYTES("made")},
    {ROW(MKDIR, ENTRY), WORDS(2, 040755), BYTES("made\0" LABEL), .options = FUSE_SECURITY_CTX},
    {ROW(SYMLINK, ENTRY), BYTES("link\0to")},
    {ROW(LOOKUP, ENTRY), BYTES("name")},
    {ROW(BATCH_FORGET, NONE), WORDS(10, 2, 0, 2, 0, 1, 0, 3, 0, 1)},
    {ROW(READDIR, ENTRIES), WORDS(10, 1, 0, 0, 0, 72)},
    {ROW(READDIRPLUS, ENTRIES), WORDS(10, 1, 0, 0, 0, 330)},
    {ROW(GETXATTR, XATTR), WORDS(2, 0), BYTES("user.name")},
    {ROW(READ, DATA), WORDS(10, 1, 0, 0, 0, 100)},
    {ROW(WRITE, WRITE), WORDS(10, 1, 0, 0, 0, 5), BYTES("data")},
    {ROW(GETATTR, ATTR), WORDS(4, 0)},
    {ROW(OPEN, OPEN), WORDS(2, 2)},
    {ROW(STATFS, STATFS), WORDS(0, 0)},
    {ROW(LSEEK, LSEEK), WORDS(6, 1)},
    {"an unknown opcode", 999, PK_CALL_NONE, PK_ANSWER_NONE, WORDS(0, 0)},
};

static size_t length(const struct row *row) { return 40 + 4 * row->word_count + row->byte_count; }

static void put_request(const struct row *row) {
    uint64_t head[] = {length(row) | (uint64_t)row->opcode << 32, now.offered, 1, 0, 0},
             guest = REQUEST;
    for (size_t k = 0; k < 5; k++, guest += 8) put(guest, head[k], 8);
    for (size_t k = 0; k < row->word_count; k++, guest += 4) put(guest, row->words[k], 4);
    for (size_t k = 0; k < row->byte_count; k++) put(guest++, (uint8_t)row->bytes[k], 1);
}

/* Makes it available, in two descriptors or piece by piece. */
static void offer(const struct row *row) {
    unsigned count = 0;
    size_t len = length(row);
    put_request(row);
    if (row->is_wide) {
        for (size_t k = 0; k < len; k += PIECE)
            put_descriptor(TABLE, count++, REQUEST + k, len - k < PIECE ? len - k : PIECE, 1);
        for (unsigned k = 1; k <= ROOM_PIECES; k++)
            put_descriptor(TABLE, count++, ROOM + 2 * ROOM_PIECE * k, ROOM_PIECE,
                           k < ROOM_PIECES ? 3 : 2);
        put_descriptor(DESC, 0, TABLE, 16 * (uint64_t)count, 4);
    } else {
        put_descriptor(DESC, 0, REQUEST, len, 1);
        put_descriptor(DESC, 1, ROOM, ROOM_LEN, 2);
    }
    put(AVAIL + 4 + 2 * (now.offered % SIZE), 0, 2);
    put(AVAIL + 2, ++now.offered, 2);
}

/* ------------------------------------------------------------- the script */

static void set_memory(unsigned low, uint64_t high, uint32_t wanted) {
    uintptr_t host = (uintptr_t)now.pages;
    struct pk_region regions[] = {{high, PAGE, host + HIGH * PAGE},
                                  {0, 2 * PAGE, host + low * PAGE}};
    bool is_new = pk_chain_state(chain) == PK_STATE_NONE;
    do begin(SET_MEMORY);
    while (again(pk_chain_set_memory(chain, &now.device, regions, 2), wanted));
    /* the tickets are the same each time */
    if (is_new && wanted == PK_DONE && pk_chain_set_ticket(chain, 1)) exit(1);
}

/* Pops up to the load at an address, or to the end for address 0. The library chooses the length
 * of each load. */
static void pop_to(uintptr_t end, uint32_t wanted) {
    uint8_t bytes[PK_LOAD_MAX];
    uint32_t status;
    size_t len = 0;
    now.step = (struct pk_pop_result){0};
    do {
        do {
            begin(POP);
            status = pk_pop(chain, &now.queues[0], bytes, len, &now.step);
        } while (again(status, status == PK_LOAD ? PK_LOAD : wanted));
        len = now.step.load_len;
        if (len > 0) memcpy(bytes, (const void *)now.step.load_at, len);
    } while (status == PK_LOAD && now.step.load_at != end);
}

static void pop(uint32_t wanted) { pop_to(0, wanted); }

static void drop(void) {
    do begin(DROP);
    while (again(pk_drop(chain, &now.queues[0]), PK_DONE));
}

static void decode(const struct row *row) {
    uint8_t request[512];
    size_t whole = length(row), have = 0, first = whole < PK_FIRST ? whole : PK_FIRST;
    uint32_t more = row->opcode == FUSE_WRITE ? PK_DONE : PK_MORE;
    for (size_t k = 0; k < now.seen.request_count; have += now.seen.request[k++].len)
        memcpy(request + have, (const void *)now.seen.request[k].at, now.seen.request[k].len);
    now.device.options = row->options;
    do begin(DECODE);
    while (again(pk_decode(chain, &now.device, request, first, &now.call),
                 first < whole ? more : PK_DONE));
    if (now.status == PK_MORE) {
        do begin(DECODE);
        while (again(pk_decode(chain, &now.device, request, have, &now.call), PK_DONE));
    }
    tickets[chain - chains] = now.call.ticket;
    if (now.call.kind != row->kind || now.call.answer != row->answer)
        wrong("another call: ", pk_call_name(now.call.kind));
}

static const struct pk_entry entry = {
    .node = 2, .entry_secs = 1, .attr = {.ino = 2, .mode = 0100644, .nlink = 1}};

static uint32_t add(const char *name, uint64_t next) {
    const uint8_t *bytes = (const uint8_t *)name;
    if (now.call.kind == PK_CALL_READDIR)
        return pk_add_direntry(chain, tickets[chain - chains], now.list, sizeof now.list, bytes,
                               strlen(name), 2, next, 8);
    return pk_add_direntry_plus(chain, tickets[chain - chains], now.list, sizeof now.list, bytes,
                                strlen(name), &entry, next);
}

static uint32_t answer_by(uint32_t answer) {
    static const struct pk_statfs statfs = {.blocks = 1, .bsize = PAGE};
    switch (answer) {
    case PK_ANSWER_ENTRY: return pk_reply_entry(chain, tickets[chain - chains], &entry);
    case PK_ANSWER_ATTR: return pk_reply_attr(chain, tickets[chain - chains], &entry.attr, 1, 0);
    case PK_ANSWER_OPEN: return pk_reply_open(chain, tickets[chain - chains], 1, 0);
    case PK_ANSWER_CREATE: return pk_reply_create(chain, tickets[chain - chains], &entry, 1, 0);
    case PK_ANSWER_DATA: return pk_reply_data(chain, tickets[chain - chains], 100);
    case PK_ANSWER_XATTR: return pk_reply_xattr(chain, tickets[chain - chains], 5);
    case PK_ANSWER_STATFS: return pk_reply_statfs(chain, tickets[chain - chains], &statfs);
    case PK_ANSWER_WRITE: return pk_reply_write(chain, tickets[chain - chains], 5);
    case PK_ANSWER_LSEEK: return pk_reply_lseek(chain, tickets[chain - chains], 5);
    case PK_ANSWER_ENTRIES: return pk_reply_entries(chain, tickets[chain - chains], &now.listed);
    case PK_ANSWER_INIT: return pk_reply_init(chain, tickets[chain - chains], &now.device, 0);
    default: return pk_reply_err(chain, tickets[chain - chains], 0);
    }
}

/* Two entries of a listing fit. */
static void answer(const struct row *row) {
    static const char *const names[] = {"first", "second", "third"};
    if (row->answer == PK_ANSWER_NONE) return;
    for (unsigned k = 0; k < 3 && row->answer == PK_ANSWER_ENTRIES; k++) {
        do begin(REPLY);
        while (again(add(names[k], k + 1), k < 2 ? PK_DONE : PK_FULL));
    }
    do begin(REPLY);
    while (again(answer_by(row->answer), PK_DONE));
}

static void scatter(const uint8_t *bytes, size_t len) {
    for (size_t k = 0; k < now.seen.room_count && len > 0; k++) {
        size_t part = now.seen.room[k].len < len ? now.seen.room[k].len : len;
        memcpy((void *)now.seen.room[k].at, bytes, part);
        bytes += part;
        len -= part;
    }
}

static void push(void) {
    uint16_t seen;
    do begin(PUSH);
    while (
        again(pk_push(chain, &now.queues[0], now.front, sizeof now.front, &now.stores), PK_DONE));
    scatter(now.front, now.stores.front_len);
    memcpy((void *)now.stores.id_at, &now.stores.id, 4);
    memcpy((void *)now.stores.len_at, &now.stores.len, 4);
    memcpy((void *)now.stores.index_at, &now.stores.index, 2);
    memcpy(&seen, (const void *)now.stores.seen_at, 2);
    do begin(PUSHED);
    while (again(pk_pushed(chain, &now.queues[0], seen, &now.notify), PK_DONE));
}

static void play(const struct row *row) {
    offer(row);
    row_name = row->name;
    if (row->is_wide) {
        pop_to((uintptr_t)at(BOUND), PK_LOAD); /* to the second part of the entry that is split */
        set_memory(LOW_MOVED, BOUND, PK_CHAIN_IN_FLIGHT);
        drop();
    }
    pop(PK_DONE);
    if (row->slips) {
        set_memory(LOW_MOVED, BOUND, PK_CHAIN_IN_FLIGHT);
        drop();
        pop(PK_DONE);
    }
    decode(row);
    answer(row);
    push();
}

/* Each of the other handles has a LOOKUP in flight: one isn't decoded, one has no answer yet, and
 * one has its answer. */
static const struct row held = {ROW(LOOKUP, ENTRY), BYTES("held")};

static void look_at(size_t handle) {
    chain = &chains[handle];
    look();
}

static void hold(void) {
    row_name = "the other handles";
    for (size_t k = 1; k < HANDLES; k++) {
        look_at(k);
        set_memory(LOW, BOUND, PK_DONE);
        offer(&held);
        pop(PK_DONE);
        if (k > 1) decode(&held);
        if (k > 2) answer(&held);
    }
    look_at(0);
}

/* They are pushed in another order than they were popped. */
static void let_go(void) {
    row_name = "the other handles";
    put_request(&held);
    for (size_t k = HANDLES - 1; k > 0; k--) {
        look_at(k);
        if (k == 1) decode(&held);
        if (k <= 2) answer(&held);
        push();
    }
    look_at(0);
}

static void enable_notifications(void) {
    struct pk_store store;
    do begin(NOTIFICATION);
    while (again(pk_set_notification(chain, &now.queues[0], 1, &store), PK_DONE));
}

static void save(size_t room, uint32_t wanted) {
    do begin(SAVE);
    while (again(pk_save(&now.device, now.queues, 2, now.record, room, &now.len), wanted));
}

/* The numbers of resets aren't the same each time, so they are taken away. */
static uint32_t read_record(size_t room) {
    uint32_t status =
        pk_restore(&now.moved, now.restored, room, now.record, now.len, &now.count);
    for (size_t k = 0; status == PK_DONE && k < now.count; k++) now.restored[k].reset_count = 0;
    return status;
}

static void restore(size_t room, uint32_t wanted) {
    do begin(RESTORE);
    while (again(read_record(room), wanted));
}

/* A restored queue is reset, so some of its fields differ. */
static bool is_alike(const struct pk_queue *a, const struct pk_queue *b) {
    return a->desc == b->desc && a->avail == b->avail && a->used == b->used && a->size == b->size &&
           a->next_avail == b->next_avail && a->next_used == b->next_used &&
           a->stopped == b->stopped;
}

static void move(void) {
    row_name = "a record";
    now.device.options = FUSE_SECURITY_CTX;
    save(20, PK_SHORT_BUFFER);
    save(sizeof now.record, PK_DONE);
    restore(1, PK_SHORT_BUFFER);
    restore(2, PK_DONE);
    for (size_t k = 0; k < 2; k++)
        if (!is_alike(&now.restored[k], &now.queues[k])) wrong("another queue", "");
    if (now.moved.options != now.device.options) wrong("another record", "");
}

static void free_chains(void) {
    row_name = "the end";
    for (size_t k = HANDLES; k > 0; k--) {
        look_at(k - 1);
        begin(FREE);
        pk_chain_free(chain);
        (void)again(PK_DONE, PK_DONE);
        if (chain->at != NULL || chain->state != 0) wrong("the handle isn't zeros", "");
    }
    if (heap.held != 0) wrong("memory isn't freed", "");
}

static void play_script(void) {
    row_name = "memory";
    set_memory(LOW, BOUND, PK_DONE);
    pop(PK_IDLE);
    hold();
    enable_notifications();
    for (size_t k = 0; k < sizeof rows / sizeof rows[0]; k++) play(&rows[k]);
    save(sizeof now.record, PK_CHAIN_IN_FLIGHT);
    let_go();
    move();
    row_name = "other memory";
    set_memory(LOW_MOVED, PAGE, PK_REGIONS_OVERLAP);
    memcpy(now.pages + LOW_MOVED * PAGE, now.pages + LOW * PAGE, 2 * PAGE);
    set_memory(LOW_MOVED, BOUND, PK_DONE);
    now.low = LOW_MOVED;
    play(&rows[0]);
    free_chains();
}

/* ------------------------------------------------------------- runs */

/* Plays the script with the request of this number refused. Returns whether there was one. */
static bool run(uint64_t number, bool goes_on) {
    memset(&heap, 0, sizeof heap);
    memset(&now, 0, sizeof now);
    heap.number = number;
    heap.goes_on = goes_on;
    now.low = LOW;
    now.device = now.moved = (struct pk_device)PK_DEVICE;
    now.queues[0] = (struct pk_queue){
        .desc = DESC, .avail = AVAIL, .used = USED, .size = SIZE, .max_in_flight = HANDLES,
        .reset_count = 1 /* as if it had begun: the same in each run */};
    now.queues[1] = (struct pk_queue){
        .used = 0x1000, .size = 8, .next_avail = 7, .next_used = 7, .stopped = PK_STOPPED};
    memset(chains, 0, sizeof chains);
    memset(tickets, 0, sizeof tickets);
    chain = chains;
    at_call = 0;
    row_name = "no memory";
    look();
    play_script();
    if (number > 0 && at_call != call_count) wrong("the script ends early", "");
    if (number > 0 && heap.made >= number && heap.refused == 0)
        wrong("so many requests were made, and none was refused", "");
    return heap.refused > 0;
}

int main(void) {
    uint64_t runs = 0, all = 0;
    (void)run(0, false);
    call_count = at_call;
    for (size_t k = 0; k < KINDS; k++) {
        kind = (enum kind)k;
        all += requests[k];
        if (kinds[k].refusal != 0 && requests[k] == 0) wrong("it requests no memory here", "");
    }
    for (int goes_on = 0; goes_on < 2; goes_on++)
        for (uint64_t number = 1; run(number, goes_on); number++) runs++;
    printf("failed allocations: %llu requests in %zu calls (", (unsigned long long)all, call_count);
    for (size_t k = 0; kinds[k].refusal != 0; k++)
        printf("%s%s %llu", k > 0 ? ", " : "", kinds[k].name, (unsigned long long)requests[k]);
    printf("), %llu runs with one refused, or it and those after it\n", (unsigned long long)runs);
    return 0;
}
