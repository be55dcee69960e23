/* Answers beside a plain model of linux/fuse.h:
 *     answered [ROUNDS [SEED]]
 * In each round a guest makes a request of any opcode, with a reply buffer of any length. The
 * author answers by any function of pitskhomu.h, with random numbers, until one is taken. Each
 * status, the reply's bytes and its length are compared with those of the model. */
#include "chance.h"
#include "plain_fields.h"
#include <pitskhomu.h>
#include <stdbool.h>
#include <stdio.h>
#include <stdlib.h>
#include <string.h>

enum { AVAIL = 0x1000, USED = 0x2000, REQUEST = 0x3000, REPLY = 0x4000, MEMORY = 0x8000 };
enum { SIZE = 4, LIST = 0x800, SECOND = 1000000000 };

/* A row for each opcode of linux/fuse.h: its record's length, how many names follow, and the kind
 * of its answer. */
static const struct row {
    uint8_t opcode, record, names, answer;
} rows[] = {
    {1, 0, 1, PK_ANSWER_ENTRY},
    {2, 8, 0, PK_ANSWER_NONE},
    {3, 16, 0, PK_ANSWER_ATTR},
    {4, 88, 0, PK_ANSWER_ATTR},
    {5, 0, 0, PK_ANSWER_DATA},
    {6, 0, 2, PK_ANSWER_ENTRY},
    {8, 16, 1, PK_ANSWER_ENTRY},
    {9, 8, 1, PK_ANSWER_ENTRY},
    {10, 0, 1, PK_ANSWER_DONE},
    {11, 0, 1, PK_ANSWER_DONE},
    {12, 8, 2, PK_ANSWER_DONE},
    {13, 8, 1, PK_ANSWER_ENTRY},
    {14, 8, 0, PK_ANSWER_OPEN},
    {15, 40, 0, PK_ANSWER_DATA},
    {16, 40, 0, PK_ANSWER_WRITE},
    {17, 0, 0, PK_ANSWER_STATFS},
    {18, 24, 0, PK_ANSWER_DONE},
    {20, 16, 0, PK_ANSWER_DONE},
    {21, 8, 1, PK_ANSWER_DONE},
    {22, 8, 1, PK_ANSWER_DATA},
    {23, 8, 0, PK_ANSWER_DATA},
    {24, 0, 1, PK_ANSWER_DONE},
    {25, 24, 0, PK_ANSWER_DONE},
    {26, 64, 0, PK_ANSWER_INIT},
    {27, 8, 0, PK_ANSWER_OPEN},
    {28, 40, 0, PK_ANSWER_ENTRIES},
    {29, 24, 0, PK_ANSWER_DONE},
    {30, 16, 0, PK_ANSWER_DONE},
    {34, 8, 0, PK_ANSWER_DONE},
    {35, 16, 1, PK_ANSWER_CREATE},
    {38, 0, 0, PK_ANSWER_DONE},
    {43, 32, 0, PK_ANSWER_DONE},
    {44, 40, 0, PK_ANSWER_ENTRIES},
    {45, 16, 2, PK_ANSWER_DONE},
    {46, 24, 0, PK_ANSWER_LSEEK},
    {47, 56, 0, PK_ANSWER_WRITE},
    {50, 8, 0, PK_ANSWER_DONE},
    /* without a file call */
    {31, 48, 0, PK_ANSWER_NONE},
    {33, 48, 0, PK_ANSWER_NONE},
    {36, 8, 0, PK_ANSWER_NONE},
    {37, 16, 0, PK_ANSWER_NONE},
    {40, 24, 0, PK_ANSWER_NONE},
    {200, 0, 0, PK_ANSWER_NONE},
};
enum { ROWS = sizeof rows / sizeof *rows };
enum { FORGET = 2, LINK = 13, READ = 15, WRITE = 16, SETXATTR = 21, GETXATTR = 22 };
enum { LISTXATTR = 23, INIT = 26 };
enum { READDIR = 28, INTERRUPT = 36, DESTROY = 38, READDIRPLUS = 44, ENOSYS_OF = 38 };

static _Alignas(4096) uint8_t memory[MEMORY];
static const struct pk_region region = {.guest = 0, .len = MEMORY, .host = (uintptr_t)memory};
static struct pk_device device;
static struct pk_queue queue;
static struct pk_chain chain;
static struct pk_call call;
static const struct row *row;
static unsigned long round_of, taken, short_of, listed;

/* The reply that the model wants: its bytes, its length, and whether it is known. */
static uint8_t wanted[512], list[LIST], wanted_list[LIST];
static uint64_t wanted_len, room, size, entries;
static size_t front, list_len;
static bool is_answered;

static void expect(const char *what, uint64_t found, uint64_t expected) {
    if (found == expected) return;
    fprintf(stderr, "FAILED in round %lu, opcode %u: %s: %llx, and not %llx\n", round_of,
            row->opcode, what, (unsigned long long)found, (unsigned long long)expected);
    abort();
}

static uint64_t number(void) { return below(3) ? chance() : ONE_OF(0, 1, UINT32_MAX, UINT64_MAX); }
static uint32_t word(void) { return (uint32_t)number(); }

/* ------------------------------------------------------------- the model's replies */

static void put(uint64_t value, size_t len) {
    for (; len > 0; len--, value >>= 8) wanted[front++] = (uint8_t)value;
}

static void put_attr(const struct pk_attr *a) {
    const uint64_t numbers[] = {a->ino, a->size, a->blocks, a->atime, a->mtime, a->ctime};
    const uint32_t words[] = {a->atime_nanos, a->mtime_nanos, a->ctime_nanos, a->mode,
                              a->nlink,       a->uid,         a->gid,         a->rdev,
                              a->block_size,  a->flags};
    for (size_t k = 0; k < 6; k++) put(numbers[k], 8);
    for (size_t k = 0; k < 10; k++) put(words[k], 4);
}

static void put_entry(const struct pk_entry *e) {
    const uint64_t numbers[] = {e->node, e->generation, e->entry_secs, e->attr_secs};
    for (size_t k = 0; k < 4; k++) put(numbers[k], 8);
    put(e->entry_nanos, 4);
    put(e->attr_nanos, 4);
    put_attr(&e->attr);
}

/* The header is put when the reply is known: an error, or 0. */
static void begin_reply(void) { front = PK_HEADER; }

/* Ends a reply with data behind its front. Returns the status. */
static uint32_t end_reply(uint32_t error, uint64_t behind) {
    size_t len = front;
    is_answered = true;
    wanted_len = len + behind;
    front = 0;
    put(wanted_len, 4);
    put(0u - error, 4);
    put(call.unique, 8);
    front = len;
    if (wanted_len <= room) return PK_DONE;
    front = 0, wanted_len = 0, short_of++;
    return PK_NO_ROOM;
}

/* The status of an answer that fits the call, or not; `is_bad`: its numbers aren't allowed. */
static uint32_t status_of(bool is_bad, uint32_t ticket, bool fits) {
    if (is_bad) return PK_BAD_ARGUMENT;
    if (is_answered) return PK_WRONG_ORDER;
    if (ticket != call.ticket) return PK_OTHER_CALL;
    return fits ? PK_DONE : PK_OTHER_KIND;
}

/* ------------------------------------------------------------- the author's answers */

static struct pk_attr some_attr(void) {
    return (struct pk_attr){number(), number(), number(), number(), number(), number(),
                            word(),   word(),   word(),   word(),   word(),   word(),
                            word(),   word(),   word(),   word()};
}

static uint32_t some_nanos(void) {
    return (uint32_t)(below(8) ? below(SECOND) : ONE_OF(SECOND - 1, SECOND, UINT32_MAX));
}

static struct pk_entry some_entry(void) {
    return (struct pk_entry){number(),     number(),     number(),   number(),
                             some_nanos(), some_nanos(), some_attr()};
}

static void check(const char *what, uint32_t status, uint32_t expected) {
    if (expected == PK_DONE) {
        taken++;
        expected = end_reply(0, 0);
    }
    expect(what, status, expected);
}

static void by_error(uint32_t ticket) {
    uint32_t error = (uint32_t)ONE_OF(0, 1, 2, 38, 4095, 4096, UINT32_MAX, 0x80000000, chance());
    bool fits = error ? row->opcode != DESTROY : row->answer == PK_ANSWER_DONE;
    uint32_t status = status_of(error > 4095, ticket, fits), expected = status;
    begin_reply();
    if (status == PK_DONE && row->opcode == DESTROY) {
        is_answered = true, front = 0, wanted_len = 0;
    } else if (status == PK_DONE && row->opcode == READDIRPLUS && entries > 0) {
        expect("its status", end_reply(0, entries), PK_DONE);
        expected = PK_ENTRIES;
    } else if (status == PK_DONE) {
        expected = end_reply(error, 0);
    }
    expect("an error", pk_reply_err(&chain, ticket, error), expected);
}

static void by_entry(uint32_t ticket) {
    struct pk_entry e = some_entry();
    bool is_bad = e.entry_nanos >= SECOND || e.attr_nanos >= SECOND;
    begin_reply();
    put_entry(&e);
    check("an entry", pk_reply_entry(&chain, ticket, &e),
          status_of(is_bad, ticket, row->answer == PK_ANSWER_ENTRY));
}

static void by_create(uint32_t ticket) {
    struct pk_entry e = some_entry();
    uint64_t handle = number();
    uint32_t flags = word();
    bool is_bad = e.entry_nanos >= SECOND || e.attr_nanos >= SECOND;
    begin_reply();
    put_entry(&e);
    put(handle, 8);
    put(flags, 8);
    check("a new file", pk_reply_create(&chain, ticket, &e, handle, flags),
          status_of(is_bad, ticket, row->answer == PK_ANSWER_CREATE));
}

static void by_attr(uint32_t ticket) {
    struct pk_attr a = some_attr();
    uint64_t secs = number();
    uint32_t nanos = some_nanos();
    begin_reply();
    put(secs, 8);
    put(nanos, 8);
    put_attr(&a);
    check("attributes", pk_reply_attr(&chain, ticket, &a, secs, nanos),
          status_of(nanos >= SECOND, ticket, row->answer == PK_ANSWER_ATTR));
}

static void by_open(uint32_t ticket) {
    uint64_t handle = number();
    uint32_t flags = word();
    begin_reply();
    put(handle, 8);
    put(flags, 8);
    check("an open file", pk_reply_open(&chain, ticket, handle, flags),
          status_of(false, ticket, row->answer == PK_ANSWER_OPEN));
}

static void by_data(uint32_t ticket) {
    uint64_t len =
        below(6) ? below(room + 1) : ONE_OF(room, call.data_len, call.data_len + 1, chance());
    uint32_t expected = status_of(false, ticket, row->answer == PK_ANSWER_DATA);
    if (expected == PK_DONE && row->opcode == READ && len > call.data_len) expected = PK_LONG_REPLY;
    begin_reply();
    if (expected == PK_DONE && len > room) {
        is_answered = true, front = 0, wanted_len = 0, expected = PK_NO_ROOM;
    } else if (expected == PK_DONE) {
        expected = end_reply(0, len);
    }
    expect("data", pk_reply_data(&chain, ticket, len), expected);
}

/* Answers of one number. */
static void by_number(uint32_t ticket) {
    uint64_t value = number();
    bool is_xattr = row->opcode == GETXATTR || row->opcode == LISTXATTR;
    uint32_t count = (uint32_t)value;
    begin_reply();
    switch (below(3)) {
    case 0:
        put(count, 8);
        check("an attribute's length", pk_reply_xattr(&chain, ticket, count),
              status_of(false, ticket, is_xattr));
        break;
    case 1:
        put(count, 8);
        check("written bytes", pk_reply_write(&chain, ticket, count),
              status_of(false, ticket, row->answer == PK_ANSWER_WRITE));
        break;
    default:
        put(value, 8);
        check("an offset", pk_reply_lseek(&chain, ticket, value),
              status_of(false, ticket, row->answer == PK_ANSWER_LSEEK));
    }
}

static void by_statfs(uint32_t ticket) {
    struct pk_statfs s = {number(), number(), number(), number(), number(), word(), word(), word()};
    const uint64_t numbers[] = {s.blocks, s.bfree, s.bavail, s.files, s.ffree};
    begin_reply();
    for (size_t k = 0; k < 5; k++) put(numbers[k], 8);
    put(s.bsize, 4);
    put(s.namelen, 4);
    put(s.frsize, 4);
    for (size_t k = 0; k < 7; k++) put(0, 4);
    check("numbers of a file system", pk_reply_statfs(&chain, ticket, &s),
          status_of(false, ticket, row->answer == PK_ANSWER_STATFS));
}

/* Bytes of the author's own, in place of an answer. */
static void by_bytes(uint32_t ticket) {
    uint64_t len = below(3) ? below(room + 1) : ONE_OF(room + 1, UINT32_MAX, chance() | 1 << 20);
    uint32_t status = is_answered             ? PK_WRONG_ORDER
                      : ticket != call.ticket ? PK_OTHER_CALL
                      : len > room            ? PK_LONG_REPLY
                                              : PK_DONE;
    expect("own bytes", pk_reply_bytes(&chain, ticket, len), status);
    if (status == PK_DONE) is_answered = true, front = 0, wanted_len = len;
}

/* What a server agrees on by itself, by the bits of FUSE_INIT. */
static uint64_t default_options(void) {
    static const uint8_t own[] = {0, 3, 5, 11, 12, 15, 18, 22, 27, 30, 34, 40};
    uint64_t options = 0;
    for (size_t k = 0; k < sizeof own; k++) options |= UINT64_C(1) << own[k];
    return options;
}

static void by_init(uint32_t ticket) {
    uint64_t asked = number(), before = device.options;
    uint64_t agreed = call.options & (asked | default_options());
    uint32_t readahead;
    memcpy(&readahead, memory + REQUEST + 48, 4);
    uint32_t expected = status_of(false, ticket, row->answer == PK_ANSWER_INIT);
    const uint32_t words[] = {7,
                              38,
                              readahead,
                              (uint32_t)agreed,
                              65535 | 49149u << 16,
                              0x100000,
                              1,
                              0xfffff / device.page_size + 1,
                              (uint32_t)(agreed >> 32)};
    begin_reply();
    for (size_t k = 0; k < 9; k++) put(words[k], 4);
    for (size_t k = 0; k < 7; k++) put(0, 4);
    if (expected == PK_DONE) expected = end_reply(0, 0);
    expect("options", pk_reply_init(&chain, ticket, &device, asked), expected);
    bool is_taken = expected == PK_DONE || expected == PK_NO_ROOM;
    expect("the device's options", device.options, is_taken ? agreed : before);
}

/* ------------------------------------------------------------- listings */

static bool is_type(uint32_t type) { return type <= 12 && (type <= 2 || type % 2 == 0); }

/* The bytes of an entry, behind those that the model has. */
static void put_dirent(const uint8_t *name, size_t name_len, const struct pk_entry *e,
                       uint64_t offset, bool plus) {
    struct pk_entry none = {.attr = {.ino = e->attr.ino, .mode = e->attr.mode / 4096 % 16 * 4096}};
    bool is_dot = name[0] == '.' && (name_len == 1 || (name_len == 2 && name[1] == '.'));
    front = 0;
    if (plus) put_entry(is_dot ? &none : e);
    put(e->attr.ino, 8);
    put(offset, 8);
    put(name_len, 4);
    put(e->attr.mode / 4096 % 16, 4);
    memcpy(wanted + front, name, name_len);
    memset(wanted + front + name_len, 0, 8);
    front = (front + name_len + 7) / 8 * 8;
}

/* The status of an entry whose bytes are `front`. */
static uint32_t added(bool is_bad, uint32_t ticket, size_t len, bool plus) {
    uint8_t opcode = plus ? READDIRPLUS : READDIR;
    uint32_t status = status_of(is_bad, ticket, row->opcode == opcode);
    bool is_listing = row->answer == PK_ANSWER_ENTRIES && !is_answered;
    if ((status == PK_DONE || status == PK_OTHER_KIND) && is_listing && list_len && len != list_len)
        return PK_BAD_ARGUMENT;
    if (status != PK_DONE) return status;
    if (size - entries < front) return PK_FULL;
    if (room - PK_HEADER - entries < front) return PK_LIST_FAILS;
    if (len - entries < front) return PK_SHORT_BUFFER;
    memcpy(wanted_list + entries, wanted, front);
    entries += front, list_len = len, listed++;
    return PK_DONE;
}

static void by_listing(uint32_t ticket) {
    uint8_t name[300];
    struct pk_entry e = some_entry();
    size_t len = list_len && below(8) ? list_len : below(LIST + 1),
           name_len = below(4) ? 1 + below(30) : below(2) ? 254 + below(3) : below(300);
    uint64_t offset = number(), most;
    bool plus = row->opcode == READDIRPLUS ? below(12) : !below(12), is_bad;
    memset(name, 'n', sizeof name);
    if (name_len && below(9) == 0) name[below(name_len)] = '/';
    if (below(5) == 0) name[0] = name[1] = '.';
    if (below(3)) name_len = name_len < 8 || name_len > 253 ? name_len : 1 + name_len % 8;
    if (below(4)) e.attr.mode = (uint32_t)(below(8) * 2 * 4096 + below(4096));
    is_bad = name_len == 0 || name_len > 255 || memchr(name, '/', name_len) ||
             !is_type(e.attr.mode / 4096 % 16);
    if (plus) is_bad = is_bad || e.entry_nanos >= SECOND || e.attr_nanos >= SECOND;
    if (!is_bad) put_dirent(name, name_len, &e, offset, plus);
    uint32_t status =
        plus ? pk_add_direntry_plus(&chain, ticket, list, len, name, name_len, &e, offset)
             : pk_add_direntry(&chain, ticket, list, len, name, name_len, e.attr.ino, offset,
                               e.attr.mode / 4096 % 16);
    expect("an entry of a listing", status, added(is_bad, ticket, len, plus));
    if (below(6)) return;
    uint32_t expected = status_of(false, ticket, row->answer == PK_ANSWER_ENTRIES);
    most = expected == PK_DONE ? entries : 0;
    begin_reply();
    if (expected == PK_DONE) expected = end_reply(0, entries);
    uint64_t told = 7;
    expect("a listing", pk_reply_entries(&chain, ticket, &told), expected);
    expect("its length", told, most);
}

/* ------------------------------------------------------------- rounds */

static void store(size_t at, uint64_t value, size_t len) { memcpy(memory + at, &value, len); }

static uint64_t loaded(size_t at, size_t len) {
    uint64_t value = 0;
    memcpy(&value, memory + at, len);
    return value;
}

/* The driver makes a request of the row available. Returns its length. */
static size_t offer(void) {
    size_t len = 40 + row->record + 2u * row->names;
    if (row->opcode == WRITE) len += below(2) ? below(0x800) : 0;
    memset(memory + REQUEST, 0, 256);
    for (size_t at = 40; at < 40u + row->record && row->opcode != INIT; at += 4)
        store(REQUEST + at, number(), 4);
    store(REQUEST, len, 4);
    store(REQUEST + 4, row->opcode, 4);
    store(REQUEST + 8, number(), 8);
    store(REQUEST + 16, number(), 8);
    for (size_t at = 24; at < 36; at += 4) store(REQUEST + at, number(), 4);
    size = below(room + 1);
    if (row->answer == PK_ANSWER_ENTRIES) store(REQUEST + 56, size, 4);
    if (row->opcode == WRITE) store(REQUEST + 56, len - 80, 4);
    if (row->opcode == READ) store(REQUEST + 56, below(2) ? size : number(), 4);
    if (row->opcode == SETXATTR) store(REQUEST + 40, 0, 4);
    if (row->opcode == GETXATTR || row->opcode == LISTXATTR) store(REQUEST + 40, below(500), 4);
    if (row->opcode == INIT) {
        store(REQUEST + 40, 7 | UINT64_C(38) << 32, 8);
        store(REQUEST + 48, number(), 4);
        store(REQUEST + 52, number(), 4);
        store(REQUEST + 56, number(), 4);
    }
    for (unsigned k = 0; k < row->names; k++) memory[REQUEST + 40 + row->record + 2 * k] = 'a';
    store(0, REQUEST, 8);
    store(8, len | UINT64_C(1) << 32 | UINT64_C(1) << 48, 8);
    store(16, REPLY, 8);
    store(24, room | UINT64_C(2) << 32, 8);
    store(AVAIL + 4 + 2 * (queue.next_avail % (size_t)SIZE), 0, 2);
    store(AVAIL + 2, queue.next_avail + 1u, 2);
    return len;
}

static void pop(void) {
    static uint8_t bytes[PK_LOAD_MAX];
    struct pk_pop_result step = {0};
    uint32_t status;
    while ((status = pk_pop(&chain, &queue, bytes, step.load_len, &step)) == PK_LOAD)
        memcpy(bytes, (const void *)step.load_at, step.load_len);
    expect("the pop", status, PK_DONE);
    expect("its fault", step.fault, 0);
}

/* The request as it was made. A caller may begin with fewer bytes than it should. */
static void decode(size_t len) {
    size_t have = len < PK_FIRST ? len : PK_FIRST;
    const uint8_t *bytes = memory + REQUEST;
    expect("too many bytes", pk_decode(&chain, &device, bytes, len + 1 + below(9), &call),
           PK_BAD_ARGUMENT);
    for (uint64_t k = below(3); k > 0; k--) {
        expect("too few bytes", pk_decode(&chain, &device, bytes, below(have), &call), PK_MORE);
        expect("the first bytes", call.needed, have);
        expect("no call", call.kind, 0);
    }
    uint32_t status = pk_decode(&chain, &device, bytes, have, &call);
    if (row->opcode == WRITE) {
        expect("a WRITE's data", call.data_at, 80);
        expect("its length", call.data_len, len - 80);
    } else if (status == PK_MORE) {
        expect("the bytes that are needed", call.needed, len);
        status = pk_decode(&chain, &device, bytes, len, &call);
    }
    struct pk_call again = {.kind = 7, .ticket = 7};
    expect("the request", status, PK_DONE);
    expect("it again", pk_decode(&chain, &device, bytes, have, &again), PK_WRONG_ORDER);
    expect("no call", again.kind | again.ticket, 0);
    bool is_counted = (row->opcode == GETXATTR || row->opcode == LISTXATTR) && call.size == 0;
    bool is_call = row->answer != PK_ANSWER_NONE || row->opcode == FORGET;
    bool has_sender = is_call && row->opcode != INIT && row->opcode != DESTROY;
    expect("its fault", call.fault, 0);
    expect("its opcode", call.opcode, row->opcode);
    const char *stray = stray_field(&call);
    if (stray) expect(stray, 1, 0);
    expect("its number", call.unique, loaded(REQUEST + 8, 8));
    expect("its node", row->opcode == LINK ? call.node2 : call.node,
           has_sender ? loaded(REQUEST + 16, 8) : 0);
    expect("its uid", call.uid, has_sender ? loaded(REQUEST + 24, 4) : 0);
    expect("its gid", call.gid, has_sender ? loaded(REQUEST + 28, 4) : 0);
    expect("its pid", call.pid, has_sender ? loaded(REQUEST + 32, 4) : 0);
    expect("its kind", call.kind, !is_call ? 0 : row->opcode == 45 ? 12 : row->opcode);
    expect("its answer", call.answer, is_counted ? PK_ANSWER_XATTR : row->answer);
    is_answered = row->answer == PK_ANSWER_NONE;
    front = 0, wanted_len = 0, entries = 0, list_len = 0;
    if (is_call || row->opcode == INTERRUPT) return;
    begin_reply();
    expect("the refusal's length", end_reply(ENOSYS_OF, 0), PK_DONE);
}

static void answer(void) {
    uint32_t ticket = call.ticket + (below(12) ? 0 : (uint32_t)ONE_OF(1, UINT32_MAX, chance() | 1));
    static void (*const by[])(uint32_t) = {
        [PK_ANSWER_NONE] = by_error,    [PK_ANSWER_DONE] = by_error,
        [PK_ANSWER_ENTRY] = by_entry,   [PK_ANSWER_ATTR] = by_attr,
        [PK_ANSWER_OPEN] = by_open,     [PK_ANSWER_CREATE] = by_create,
        [PK_ANSWER_DATA] = by_data,     [PK_ANSWER_XATTR] = by_number,
        [PK_ANSWER_STATFS] = by_statfs, [PK_ANSWER_WRITE] = by_number,
        [PK_ANSWER_LSEEK] = by_number,  [PK_ANSWER_ENTRIES] = by_listing,
        [PK_ANSWER_INIT] = by_init};
    if (below(40) == 0) {
        by_bytes(ticket);
        return;
    }
    by[below(3) ? call.answer : below(sizeof by / sizeof *by)](ticket);
}

static void push(void) {
    struct pk_stores stores;
    uint8_t bytes[PK_FRONT_MAX], notify;
    memset(bytes, 0xa5, sizeof bytes);
    if (front > 0)
        expect("a short buffer", pk_push(&chain, &queue, bytes, below(front), &stores),
               PK_SHORT_BUFFER);
    expect("the push", pk_push(&chain, &queue, bytes, sizeof bytes, &stores), PK_DONE);
    expect("the front's length", stores.front_len, front);
    expect("the reply's length", stores.len, wanted_len);
    expect("the front", memcmp(bytes, wanted, front) != 0, 0);
    expect("the list", memcmp(list, wanted_list, entries) != 0, 0);
    expect("the end of the push", pk_pushed(&chain, &queue, 0, &notify), PK_DONE);
}

static void play_round(void) {
    do row = &rows[below(ROWS)];
    while (below(6) && row->answer != PK_ANSWER_ENTRIES);
    device = (struct pk_device){4096u << below(5), PK_REQUEST_MAX, 0};
    room = ONE_OF(16, 17, 24, 32, 80, 96, 120, 143, 144, 160, 176, below(300), 300 + below(2000));
    if (room < PK_HEADER) room = PK_HEADER;
    memset(list, 0xa5, LIST);
    size_t len = offer();
    pop();
    decode(len);
    if (row->opcode == DESTROY) device.options = 0;
    for (unsigned k = 0; k < 400 && !is_answered; k++) answer();
    if (!is_answered)
        expect("a reply of own bytes", pk_reply_bytes(&chain, call.ticket, 0), PK_DONE),
            front = 0, wanted_len = 0;
    for (uint64_t k = below(3); k > 0; k--) {
        uint64_t before = wanted_len, entries_before = entries;
        uint8_t kept[PK_FRONT_MAX];
        size_t front_before = front;
        is_answered = true;
        memcpy(kept, wanted, sizeof kept);
        answer();
        memcpy(wanted, kept, sizeof kept);
        front = front_before, wanted_len = before, entries = entries_before;
    }
    push();
}

int main(int argc, char **argv) {
    unsigned long most = argc > 1 ? strtoul(argv[1], NULL, 10) : 20000;
    unsigned long seed = argc > 2 ? strtoul(argv[2], NULL, 10) : 1;
    row = rows;
    device = (struct pk_device)PK_DEVICE;
    queue = (struct pk_queue){.desc = 0, .avail = AVAIL, .used = USED, .size = SIZE};
    expect("a queue", pk_queue_begin(&queue, 0), PK_DONE);
    expect("the memory", pk_chain_set_memory(&chain, &device, &region, 1), PK_DONE);
    for (; round_of < most; round_of++) {
        chance_begin(0x9e3779b97f4a7c15u * (seed + round_of));
        for (int k = 0; k < 8; k++) chance();
        play_round();
    }
    pk_chain_free(&chain);
    printf("plain replies: %lu rounds, %lu answers taken, %lu without room, %lu entries\n", most,
           taken, short_of, listed);
    return 0;
}
