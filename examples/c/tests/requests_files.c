/* The file system of vectors/requests: it prints each call, and answers by the request's mood. */
#include "requests.h"
#include <errno.h>
#include <inttypes.h>
#include <stdarg.h>
#include <stdio.h>
#include <string.h>

uint8_t request[PK_REQUEST_MAX];
enum mood mood;
char calls[TEXT];
const char *fault;

static const struct pk_attr attr = {.ino = 2,
                                    .size = 5,
                                    .blocks = 6,
                                    .atime = 7,
                                    .mtime = 8,
                                    .ctime = 9,
                                    .atime_nanos = 10,
                                    .mtime_nanos = 11,
                                    .ctime_nanos = 12,
                                    .mode = 0100644,
                                    .nlink = 13,
                                    .uid = 14,
                                    .gid = 15,
                                    .rdev = 16,
                                    .block_size = 17,
                                    .flags = 18};
static const struct pk_statfs numbers = {1, 2, 3, 4, 5, 6, 7, 8}, no_numbers = {.bsize = 512,
                                                                               .namelen = 255};

/* The `wide` answers: of a field all bytes are different, from B on. The highest byte of a count of
 * nanoseconds is another one, and the type of the mode. */
#define U32(b) ((b) | ((b) + 1u) << 8 | ((b) + 2u) << 16 | ((b) + 3u) << 24)
#define U64(b) (U32(b) | (uint64_t)U32((b) + 4u) << 32)
enum { WIDE_LINK = 300, WIDE_ERROR = 0xabc, TEXT_MAX = 32, NAMES = 50, LIST_LEN = 0x20000 };
#define WIDE_DOT U64(0x88u)
#define WIDE_OFF U64(0x90u)
static const struct pk_attr wide_attr = {.ino = U64(0xa8u),
                                         .size = U64(0xb0u),
                                         .blocks = U64(0xb8u),
                                         .atime = U64(0xc0u),
                                         .mtime = U64(0xc8u),
                                         .ctime = U64(0xd0u),
                                         .atime_nanos = 0x2bdad9d8,
                                         .mtime_nanos = 0x2cdedddc,
                                         .ctime_nanos = 0x2de2e1e0,
                                         .mode = 0xe7e6c5e4,
                                         .nlink = U32(0xe8u),
                                         .uid = U32(0xecu),
                                         .gid = U32(0xf0u),
                                         .rdev = U32(0xf4u),
                                         .block_size = U32(0xf8u),
                                         .flags = U32(0xfcu)};
static const struct pk_statfs wide_numbers = {U64(0x80u), U64(0x88u), U64(0x90u), U64(0x98u),
                                              U64(0xa0u), U32(0xa8u), U32(0xacu), U32(0xb0u)};

static struct pk_entry entry(void) {
    if (mood == WIDE)
        return (struct pk_entry){.node = U64(0x80u),
                                 .generation = U64(0x88u),
                                 .entry_secs = U64(0x90u),
                                 .entry_nanos = 0x29a2a1a0,
                                 .attr_secs = U64(0x98u),
                                 .attr_nanos = 0x2aa6a5a4,
                                 .attr = wide_attr};
    return (struct pk_entry){.node = mood == NO_NODE ? 0 : 2,
                             .generation = 3,
                             .entry_secs = 20,
                             .entry_nanos = 21,
                             .attr_secs = 22,
                             .attr_nanos = 23,
                             .attr = attr};
}

static void note(const char *format, ...) __attribute__((format(printf, 1, 2)));
static void note(const char *format, ...) {
    size_t len = strlen(calls);
    va_list args;
    va_start(args, format);
    vsnprintf(calls + len, TEXT - len, format, args);
    va_end(args);
}

static void note_number(bool is_there, uint64_t number) {
    if (is_there)
        note(" %" PRIu64, number);
    else
        note(" -");
}

/* A text in quotes, or the length and the sum of a long one: FNV-1a of 32 bits. */
static void note_bytes(const uint8_t *bytes, size_t len) {
    uint32_t sum = 0x811c9dc5;
    for (size_t k = 0; k < len; k++) sum = (sum ^ bytes[k]) * 0x01000193u;
    if (len > TEXT_MAX)
        note(" #%zu %" PRIu32, len, sum);
    else
        note(" \"%.*s\"", (int)len, (const char *)bytes);
}

static void note_text(struct pk_span span) { note_bytes(request + span.at, span.len); }

/* A call's name, its caller, and so many numbers. */
static void note_call(const struct pk_call *c, const char *name, size_t count,
                      const uint64_t *all) {
    note("%s %u %u %u", name, c->uid, c->gid, c->pid);
    for (size_t k = 0; k < count; k++) note_number(true, all[k]);
}

#define CALL(name, ...)                                                                            \
    note_call(c, name, sizeof((uint64_t[]){__VA_ARGS__}) / 8, (uint64_t[]){__VA_ARGS__})

static void note_forgets(const struct pk_call *c) {
    if (mood != DEFAULT) note("batch_forget %u %u %u", c->uid, c->gid, c->pid);
    for (uint64_t k = 0, node, count; k < c->count; k++) {
        pk_pair(request, c, k, &node, &count);
        if (mood == DEFAULT)
            CALL("forget", node, count), note("\n");
        else
            note(" %" PRIu64 " %" PRIu64, node, count);
    }
    if (mood != DEFAULT) note("\n");
}

/* The data of a WRITE. */
static uint32_t note_data(const struct pk_call *c) {
    static uint8_t data[ROOM];
    uint64_t len = c->data_len < c->size ? c->data_len : c->size;
    if (len > sizeof data) len = sizeof data;
    gather(&chain, c->data_at, data, len);
    note_bytes(data, len);
    return (uint32_t)len;
}

/* The record's `valid` is passed without bits that have no meaning, and its handle only with
 * FATTR_FH: so both are printed as `?`. */
static void note_setattr(const struct pk_call *c) {
    const struct pk_attr *a = &c->attr;
    CALL("setattr", c->node);
    note_number(c->has_handle, c->handle);
    note(" %u ? ?", c->valid);
    const uint64_t all[] = {a->size,        c->owner,       a->atime,       a->mtime, a->ctime,
                            a->atime_nanos, a->mtime_nanos, a->ctime_nanos, a->mode,  a->uid,
                            a->gid};
    for (size_t k = 0; k < sizeof all / sizeof *all; k++) note_number(true, all[k]);
}

/* Calls with names, which follow their numbers. */
static void note_named(const struct pk_call *c) {
    switch (c->kind) {
    case PK_CALL_LOOKUP: CALL("lookup", c->node); break;
    case PK_CALL_SYMLINK: CALL("symlink", c->node), note_text(c->value); break;
    case PK_CALL_MKNOD: CALL("mknod", c->node, c->mode, c->rdev, c->umask); break;
    case PK_CALL_MKDIR: CALL("mkdir", c->node, c->mode, c->umask); break;
    case PK_CALL_CREATE:
        CALL("create", c->node, c->mode, c->kill_priv, c->flags, c->umask);
        break;
    case PK_CALL_UNLINK: CALL("unlink", c->node); break;
    case PK_CALL_RMDIR: CALL("rmdir", c->node); break;
    case PK_CALL_RENAME: CALL("rename", c->node, c->node2, c->flags); break;
    case PK_CALL_LINK: CALL("link", c->node, c->node2); break;
    case PK_CALL_SETXATTR: CALL("setxattr", c->node, c->flags, c->setxattr_flags); break;
    case PK_CALL_GETXATTR: CALL("getxattr", c->node, c->size); break;
    default: CALL("removexattr", c->node);
    }
    note_text(c->name);
    if (c->kind == PK_CALL_RENAME) note_text(c->name2);
    if (c->kind == PK_CALL_SETXATTR) note_text(c->value);
    if (c->kind == PK_CALL_SYMLINK || c->kind == PK_CALL_MKNOD || c->kind == PK_CALL_MKDIR ||
        c->kind == PK_CALL_CREATE)
        note_number(c->has_group, c->group);
    if (c->has_label) note_text(c->label_name), note_text(c->label);
}

static void note_file(const struct pk_call *c) {
    switch (c->kind) {
    case PK_CALL_OPEN: CALL("open", c->node, c->kill_priv, c->flags); break;
    case PK_CALL_OPENDIR: CALL("opendir", c->node, c->flags); break;
    case PK_CALL_READ:
        CALL("read", c->node, c->handle, c->size, c->offset);
        note_number(c->has_owner, c->owner), note_number(true, c->flags);
        break;
    case PK_CALL_RELEASE:
        CALL("release", c->node, c->flags, c->handle, c->flush, c->unlock);
        note_number(c->has_owner, c->owner);
        break;
    case PK_CALL_RELEASEDIR: CALL("releasedir", c->node, c->flags, c->handle); break;
    case PK_CALL_FSYNC: CALL("fsync", c->node, c->data_only, c->handle); break;
    case PK_CALL_FSYNCDIR: CALL("fsyncdir", c->node, c->data_only, c->handle); break;
    case PK_CALL_FLUSH: CALL("flush", c->node, c->handle, c->owner); break;
    case PK_CALL_READDIR:
    case PK_CALL_READDIRPLUS: CALL("readdir", c->node, c->handle, c->size, c->offset); break;
    case PK_CALL_FALLOCATE:
        CALL("fallocate", c->node, c->handle, c->mode, c->offset, c->size);
        break;
    case PK_CALL_LSEEK: CALL("lseek", c->node, c->handle, c->offset, c->flags); break;
    case PK_CALL_COPY_FILE_RANGE:
        CALL("copy_file_range", c->node, c->handle, c->offset, c->node2, c->handle2, c->offset2,
             c->size);
        note(" ?");
        break;
    case PK_CALL_WRITE: break;
    default: note_named(c);
    }
}

static void note_node(const struct pk_call *c) {
    switch (c->kind) {
    case PK_CALL_FORGET: CALL("forget", c->node, c->count); break;
    case PK_CALL_GETATTR: CALL("getattr", c->node), note_number(c->has_handle, c->handle); break;
    case PK_CALL_SETATTR: note_setattr(c); break;
    case PK_CALL_READLINK: CALL("readlink", c->node); break;
    case PK_CALL_STATFS: CALL("statfs", c->node); break;
    case PK_CALL_LISTXATTR: CALL("listxattr", c->node, c->size); break;
    case PK_CALL_ACCESS: CALL("access", c->node, c->mode); break;
    case PK_CALL_SYNCFS: CALL("syncfs", c->node); break;
    case PK_CALL_INIT:
        note("init");
        if (mood != DEFAULT) note_number(true, c->options);
        break;
    case PK_CALL_DESTROY: note("destroy"); break;
    default: note_file(c);
    }
}

static uint32_t reply_text(const struct pk_call *c, const char *text, uint64_t len) {
    scatter(&chain, c->data_at, text, len < c->data_len ? len : c->data_len);
    return pk_reply_data(&chain, c->ticket, len);
}

/* Bytes of the large file from an offset on. */
static uint32_t reply_pattern(const struct pk_call *c, uint64_t offset, uint64_t len) {
    static uint8_t data[ROOM];
    if (len > c->data_len) len = c->data_len;
    for (uint64_t k = 0; k < len; k++) data[k] = pattern(offset + k);
    scatter(&chain, c->data_at, data, len);
    return pk_reply_data(&chain, c->ticket, len);
}

/* `hello` from the offset on. With `other` the READ fails after its bytes. */
static uint32_t reply_read(const struct pk_call *c) {
    static const char hello[] = "hello";
    if (mood == WIDE) return reply_pattern(c, c->offset, c->size);
    uint64_t from = c->offset < 5 ? c->offset : 5, len = 5 - from;
    if (len > c->size) len = c->size;
    if (len > c->data_len) len = c->data_len;
    uint32_t status = mood == OTHER ? pk_reply_err(&chain, c->ticket, EIO) : PK_DONE;
    scatter(&chain, c->data_at, &hello[from], len);
    return mood == OTHER ? status : pk_reply_data(&chain, c->ticket, len);
}

static uint32_t reply_data(const struct pk_call *c) {
    if (c->kind == PK_CALL_READ) return reply_read(c);
    if (mood == WIDE && c->kind == PK_CALL_READLINK) return reply_pattern(c, 0, WIDE_LINK);
    if (mood == WIDE && c->size > 0) return reply_pattern(c, 0, c->size);
    if (mood == WIDE) return pk_reply_xattr(&chain, c->ticket, U32(0x80u));
    if (c->kind == PK_CALL_READLINK) return reply_text(c, "to", 2);
    if (mood == OTHER) return pk_reply_xattr(&chain, c->ticket, 9);
    return c->kind == PK_CALL_GETXATTR ? reply_text(c, "val", 3) : reply_text(c, "a\0b", 4);
}

struct item {
    uint64_t ino, next;
    uint32_t type;
    bool is_dots;
    size_t len;
    uint8_t name[256];
};

/* Entry `k` of the directory: of `.`, `a` and `..`, or of the large one. */
static struct item item(uint64_t k) {
    static const char *const names[] = {".", "a", ".."};
    static const size_t lengths[] = {7, 8, 9, 16, 255};
    bool is_wide = mood == WIDE, is_dots = is_wide ? k == 0 : k != 1;
    struct item it = {.next = (is_wide ? WIDE_OFF : 0) + k + 1, .is_dots = is_dots};
    it.type = is_dots ? 4 : is_wide ? 12 : 8;
    it.ino = is_wide ? is_dots ? WIDE_DOT : wide_attr.ino : is_dots ? 1 : 2;
    if (is_wide && k > 0)
        memset(it.name, 0x40 + (int)k, it.len = lengths[(k - 1) % 5]);
    else
        memcpy(it.name, names[k], it.len = strlen(names[k]));
    return it;
}

/* Adds entry `k`. For READDIRPLUS it is looked up, unless it is `.` or `..`, and forgotten if it
 * doesn't fit. Returns the status; `*error` becomes the look-up's error. */
static uint32_t add(const struct pk_call *c, uint8_t *list, uint64_t k, uint32_t *error) {
    const struct item it = item(k);
    struct pk_entry found = {.attr = {.ino = it.ino, .mode = it.type << 12}};
    if (c->kind == PK_CALL_READDIR)
        return pk_add_direntry(&chain, c->ticket, list, LIST_LEN, it.name, it.len, it.ino, it.next,
                               it.type);
    if (!it.is_dots) {
        found = entry();
        CALL("lookup", c->node), note_bytes(it.name, it.len), note("\n");
        if (mood == OTHER) return *error = ENOENT, PK_DONE;
    }
    uint32_t status = pk_add_direntry_plus(&chain, c->ticket, list, LIST_LEN, it.name, it.len,
                                           &found, it.next);
    if (status != PK_DONE) CALL("forget", found.node, 1), note("\n");
    return status;
}

/* The list is put into the reply buffer before its reply is known. */
static uint32_t reply_list(const struct pk_call *c) {
    static uint8_t list[LIST_LEN];
    uint64_t len = c->data_len < LIST_LEN ? c->data_len : LIST_LEN;
    uint64_t from = mood == WIDE && c->offset ? c->offset - WIDE_OFF : c->offset;
    uint32_t status = PK_DONE, error = 0;
    memset(list, 0, sizeof list);
    for (uint64_t k = from; k < (mood == WIDE ? NAMES + 1 : 3) && status == PK_DONE && !error; k++)
        status = add(c, list, k, &error);
    scatter(&chain, c->data_at, list, len);
    if (status == PK_LIST_FAILS) error = EIO;
    if (error) return pk_reply_err(&chain, c->ticket, error);
    return pk_reply_entries(&chain, c->ticket, &len);
}

/* The errno of a call that fails, or 0. */
static uint32_t error_of(const struct pk_call *c) {
    bool is_default = c->kind == PK_CALL_OPEN || c->kind == PK_CALL_OPENDIR ||
                      c->kind == PK_CALL_STATFS || c->kind == PK_CALL_INIT;
    if (c->kind == PK_CALL_DESTROY) return 0;
    if (mood == FAILING || mood == WIDE_FAILING) return mood == FAILING ? EIO : WIDE_ERROR;
    if (mood == OTHER && c->kind == PK_CALL_LOOKUP) return ENOENT;
    return mood == DEFAULT && !is_default ? ENOSYS : 0;
}

static uint32_t reply_good(const struct pk_call *c, uint32_t written) {
    const struct pk_entry found = entry();
    uint64_t handle = mood == WIDE ? U64(0x80u) : mood == GOOD ? 0x66 : 0;
    uint32_t flags = mood == WIDE ? U32(0x88u) : mood == GOOD ? 5 : mood == OTHER ? 2 : 0;
    const struct pk_statfs *stats = mood == DEFAULT ? &no_numbers : &numbers;
    switch (c->answer) {
    case PK_ANSWER_ENTRY: return pk_reply_entry(&chain, c->ticket, &found);
    case PK_ANSWER_ATTR:
        return pk_reply_attr(&chain, c->ticket, &found.attr, found.attr_secs, found.attr_nanos);
    case PK_ANSWER_OPEN: return pk_reply_open(&chain, c->ticket, handle, flags);
    case PK_ANSWER_CREATE: return pk_reply_create(&chain, c->ticket, &found, handle, flags);
    case PK_ANSWER_DATA:
    case PK_ANSWER_XATTR: return reply_data(c);
    case PK_ANSWER_STATFS:
        return pk_reply_statfs(&chain, c->ticket, mood == WIDE ? &wide_numbers : stats);
    case PK_ANSWER_WRITE: return pk_reply_write(&chain, c->ticket, written);
    case PK_ANSWER_LSEEK:
        return pk_reply_lseek(&chain, c->ticket, mood == WIDE ? U64(0x80u) : 0x0102030405060708);
    case PK_ANSWER_ENTRIES: return reply_list(c);
    case PK_ANSWER_INIT:
        return pk_reply_init(&chain, c->ticket, &device,
                             mood == OTHER || mood == WIDE ? UINT64_MAX : 0);
    default: return pk_reply_err(&chain, c->ticket, 0);
    }
}

void perform(const struct pk_call *c) {
    uint32_t written = mood == WIDE ? U32(0x80u) : 0x77;
    if (c->kind == PK_CALL_NONE) return;
    if (c->kind == PK_CALL_BATCH_FORGET) {
        note_forgets(c);
        return;
    }
    note_node(c);
    if (c->kind == PK_CALL_WRITE) {
        CALL("write", c->node, c->handle, c->size, c->offset);
        note_number(c->has_owner, c->owner);
        note(" %u %u %u", c->delayed, c->kill_priv, c->flags);
        written = note_data(c);
    }
    note("\n");
    if (c->kind == PK_CALL_DESTROY) device.options = 0;
    if (c->answer == PK_ANSWER_NONE) return;
    uint32_t error = error_of(c),
             status = error ? pk_reply_err(&chain, c->ticket, error) : reply_good(c, written);
    if (status == PK_NO_ROOM) {
        fault = "EncodeMessage";
        bool has_entry = c->answer == PK_ANSWER_ENTRY || c->answer == PK_ANSWER_CREATE;
        if (has_entry && !error) CALL("forget", entry().node, 1), note("\n");
    } else if (status != PK_DONE && status != PK_ENTRIES)
        stop("%s:%u: %s", file, line, pk_status_name(status));
}
