/* A VMM over pitskhomu.h with a file system in memory. Copy it: replace part 1 by your file system,
 * add your transport to part 2, and use access.c as it is. Here a guest in the same process writes
 * its ring (guest.h), and doesn't run while it is served. live.c serves one that runs.
 *
 *     cc -std=c11 -o monitor monitor.c access.c $(pkg-config --cflags --libs pitskhomu)
 */
#define _GNU_SOURCE
#include "access.h"
#include "guest.h"
#include <ctype.h>
#include <dirent.h> /* DT_REG */
#include <errno.h>
#include <linux/fuse.h> /* FUSE_ and FATTR_ bits */
#include <stdlib.h>
#include <sys/mman.h>

enum { ROOT = FUSE_ROOT_ID, FILES = 8, CONTENTS = 0x4000, NAME_MOST = 255 };

/* Device and queue are numbers. Each thread needs a chain and buffers of its own; here one thread
 * runs. */
static struct pk_device device = PK_DEVICE;
static struct pk_queue queue;
static struct offered known; /* of that queue */
static struct pk_chain chain;
/* as long as the device's limit, so that it holds any request */
static uint8_t request[PK_REQUEST_MAX];
static uint8_t list[PAGE]; /* READDIR's entries */

static uint64_t least(uint64_t a, uint64_t b) { return a < b ? a : b; }

/* A migration's log: whether this VMM stored to a page. */
static bool written[MEMORY / PAGE];

static void mark(void *log, uintptr_t at, uint64_t len) {
    bool *pages = log;
    size_t from = at - (uintptr_t)memory;
    for (size_t page = from / PAGE; page < MEMORY / PAGE && page * PAGE < from + len; page++)
        pages[page] = true;
}

static const struct marker marker = {mark, written};

/* ------------------------------------------------------------- 1. a file system in memory
 * File k is node k + 2; all files are in the root, node 1. An unlinked file exists as long as the
 * guest holds its node. */

struct file {
    uint8_t name[NAME_MOST];
    size_t name_len;     /* 0: unlinked */
    uint64_t held;       /* its look-up count: entries that the guest got, less those it forgot */
    uint64_t generation; /* no two files have the same node and generation */
    struct pk_attr attr;
    uint8_t contents[CONTENTS];
};
static struct file files[FILES];

static struct file *file_of(uint64_t node) {
    struct file *f = node >= 2 && node < FILES + 2 ? &files[node - 2] : NULL;
    return f && (f->name_len || f->held) ? f : NULL;
}

/* A name lies in the request's bytes. */
static struct file *named(const struct pk_call *call) {
    const uint8_t *name = request + call->name.at;
    size_t len = call->node == ROOT ? call->name.len : 0;
    for (size_t k = 0; k < FILES && len > 0; k++)
        if (files[k].name_len == len && !memcmp(files[k].name, name, len)) return &files[k];
    return NULL;
}

/* `blocks` has units of 512 bytes, for any block_size. */
static void set_size(struct file *f, uint64_t size) {
    if (size > f->attr.size) memset(f->contents + f->attr.size, 0, size - f->attr.size);
    f->attr.size = size;
    f->attr.blocks = (size + 511) / 512;
}

/* A file's entry. The guest may keep name and attributes for a second. */
static struct pk_entry entry_of(const struct file *f) {
    return (struct pk_entry){.node = f->attr.ino,
                             .generation = f->generation,
                             .entry_secs = 1,
                             .attr_secs = 1,
                             .attr = f->attr};
}

static void forget(uint64_t node, uint64_t count) {
    struct file *f = file_of(node);
    if (f) f->held -= least(f->held, count);
}

/* The guest holds the node of an entry once more, if the reply has it. */
static uint32_t counted(struct file *f, uint32_t status) {
    if (status == PK_DONE) f->held++;
    return status;
}

static uint32_t do_lookup(const struct pk_call *call) {
    struct file *f = named(call);
    if (!f) return pk_reply_err(&chain, call->ticket, ENOENT);
    struct pk_entry entry = entry_of(f);
    return counted(f, pk_reply_entry(&chain, call->ticket, &entry));
}

/* GETATTR, and SETATTR, whose `valid` has a bit for each attribute to set. */
static uint32_t do_attr(const struct pk_call *call) {
    struct pk_attr root = {.ino = ROOT, .mode = S_IFDIR | 0755, .nlink = 2, .block_size = PAGE};
    struct file *f = file_of(call->node);
    if (!f && (call->node != ROOT || call->valid))
        return pk_reply_err(&chain, call->ticket, call->node == ROOT ? EPERM : ENOENT);
    if (call->valid & FATTR_SIZE && call->attr.size > CONTENTS)
        return pk_reply_err(&chain, call->ticket, EFBIG);
    if (call->valid & FATTR_SIZE) set_size(f, call->attr.size);
    /* kind and permissions, as st_mode */
    if (call->valid & FATTR_MODE) f->attr.mode = S_IFREG | (call->attr.mode & 07777);
    /* the guest may keep them for 1 second and 0 nanoseconds */
    return pk_reply_attr(&chain, call->ticket, f ? &f->attr : &root, 1, 0);
}

static uint32_t do_create(const struct pk_call *call) {
    struct file *f = files;
    if (call->node != ROOT) return pk_reply_err(&chain, call->ticket, ENOTDIR);
    if (call->name.len > NAME_MOST) return pk_reply_err(&chain, call->ticket, ENAMETOOLONG);
    if (named(call)) return pk_reply_err(&chain, call->ticket, EEXIST);
    while (f < files + FILES && (f->name_len || f->held)) f++;
    if (f == files + FILES) return pk_reply_err(&chain, call->ticket, ENOSPC);
    memcpy(f->name, request + call->name.at, call->name.len);
    f->name_len = call->name.len;
    f->generation++;
    f->attr = (struct pk_attr){.ino = (uint64_t)(f - files) + 2,
                               .mode = S_IFREG | (call->mode & ~call->umask & 07777),
                               .nlink = 1,
                               .uid = call->uid,
                               .gid = call->gid,
                               .block_size = PAGE};
    struct pk_entry entry = entry_of(f);
    /* handle and FOPEN_ bits; open files need no handle here */
    return counted(f, pk_reply_create(&chain, call->ticket, &entry, 0, 0));
}

static uint32_t do_unlink(const struct pk_call *call) {
    struct file *f = named(call);
    if (!f) return pk_reply_err(&chain, call->ticket, ENOENT);
    f->name_len = f->attr.nlink = 0;
    return pk_reply_err(&chain, call->ticket, 0);
}

static uint32_t do_open(const struct pk_call *call) {
    struct file *f = file_of(call->node);
    if (!f) return pk_reply_err(&chain, call->ticket, ENOENT);
    if (call->flags & O_TRUNC) set_size(f, 0);
    return pk_reply_open(&chain, call->ticket, 0, 0);
}

/* Copies data from the file into the reply buffer, behind the header: at most the request's size,
 * and as much as fits. */
static uint32_t do_read(const struct pk_call *call) {
    const struct file *f = file_of(call->node);
    if (!f) return pk_reply_err(&chain, call->ticket, ENOENT);
    uint64_t from = least(call->offset, f->attr.size);
    uint64_t len = least(f->attr.size - from, least(call->size, call->data_len));
    put_data(&chain, call->data_at, f->contents + from, len, &marker);
    return pk_reply_data(&chain, call->ticket, len);
}

static uint32_t do_write(const struct pk_call *call) {
    struct file *f = file_of(call->node);
    if (!f) return pk_reply_err(&chain, call->ticket, ENOENT);
    uint64_t len = least(call->size, call->data_len);
    if (call->offset > CONTENTS || len > CONTENTS - call->offset)
        return pk_reply_err(&chain, call->ticket, EFBIG);
    if (call->offset + len > f->attr.size) set_size(f, call->offset + len);
    gather(&chain, call->data_at, f->contents + call->offset, len);
    return pk_reply_write(&chain, call->ticket, (uint32_t)len);
}

/* Lists the entries from the offset on. An entry's offset is here the number of the next file. */
static uint32_t do_readdir(const struct pk_call *call) {
    uint64_t most = least(call->data_len, sizeof list), used = 0, len = 0;
    bool plus = call->kind == PK_CALL_READDIRPLUS;
    for (uint64_t k = call->offset; k < FILES; k++) {
        struct file *f = &files[k];
        struct pk_entry entry = entry_of(f);
        if (f->name_len == 0) continue;
        used += pk_direntry_len(f->name_len, plus);
        if (used > most) break;
        uint32_t status =
            plus ? counted(f, pk_add_direntry_plus(&chain, call->ticket, list, sizeof list, f->name,
                                                   f->name_len, &entry, k + 1))
                 : pk_add_direntry(&chain, call->ticket, list, sizeof list, f->name, f->name_len,
                                   k + 2, k + 1, DT_REG);
        if (status != PK_DONE) break;
        len = used;
    }
    /* an empty list would end the directory */
    if (len == 0 && used > 0) return pk_reply_err(&chain, call->ticket, EINVAL);
    uint32_t status = pk_reply_entries(&chain, call->ticket, &len);
    put_data(&chain, call->data_at, list, len, &marker);
    return status;
}

/* ------------------------------------------------------------- 2. the VMM */

static void print_written(void) {
    printf("The pages that were written:");
    for (size_t page = 0; page < MEMORY / PAGE; page++)
        if (written[page]) printf(" %zu", page);
    printf("\n");
}

/* PK_DONE: answered. PK_NO_ROOM: the reply buffer is too small, and the chain is pushed without a
 * reply. Others: the call is still unanswered. */
static uint32_t answer(const struct pk_call *call) {
    uint64_t node, count;
    switch (call->kind) {
    case PK_CALL_NONE: return PK_DONE; /* the library has the reply already, or there is none */
    case PK_CALL_INIT:
        for (size_t k = 0; k < FILES; k++) files[k].held = 0;
        return pk_reply_init(&chain, call->ticket, &device, call->options & FUSE_DO_READDIRPLUS);
    case PK_CALL_DESTROY: device.options = 0; return pk_reply_err(&chain, call->ticket, 0);
    /* FORGET and BATCH_FORGET have no reply */
    case PK_CALL_FORGET: forget(call->node, call->count); return PK_DONE;
    case PK_CALL_BATCH_FORGET:
        for (uint64_t k = 0; k < call->count; k++)
            pk_pair(request, call, k, &node, &count), forget(node, count);
        return PK_DONE;
    case PK_CALL_LOOKUP: return do_lookup(call);
    case PK_CALL_GETATTR:
    case PK_CALL_SETATTR: return do_attr(call);
    case PK_CALL_CREATE: return do_create(call);
    case PK_CALL_UNLINK: return do_unlink(call);
    case PK_CALL_OPEN: return do_open(call);
    case PK_CALL_OPENDIR: return pk_reply_open(&chain, call->ticket, 0, 0);
    case PK_CALL_READ: return do_read(call);
    case PK_CALL_WRITE: return do_write(call);
    case PK_CALL_READDIR:
    case PK_CALL_READDIRPLUS: return do_readdir(call);
    case PK_CALL_RELEASE:
    case PK_CALL_RELEASEDIR: return pk_reply_err(&chain, call->ticket, 0);
    default: /* also kinds of later versions, which may have no reply */
        return call->answer == PK_ANSWER_NONE ? PK_DONE
                                              : pk_reply_err(&chain, call->ticket, ENOSYS);
    }
}

/* A FUSE server of this VMM's own, for an opcode that the library doesn't serve: it replies with
 * the request's bytes in capitals, behind a header (struct fuse_out_header). */
static uint32_t reply_capitals(const struct pk_pop_result *pop, const struct fuse_in_header *in,
                               uint64_t have) {
    uint64_t len = pop->request_len - sizeof *in;
    struct fuse_out_header out = {.len = (uint32_t)(sizeof out + len), .unique = in->unique};
    if (out.len > pop->reply_len) return pk_reply_bytes(&chain, pop->ticket, 0); /* no reply */
    gather(&chain, have, request + have, pop->request_len - have);
    for (uint64_t k = sizeof *in; k < pop->request_len; k++)
        request[k] = (uint8_t)toupper(request[k]);
    put_data(&chain, 0, &out, sizeof out, &marker);
    put_data(&chain, sizeof out, request + sizeof *in, len, &marker);
    return pk_reply_bytes(&chain, pop->ticket, out.len);
}

/* PK_DONE: the chain can be pushed. Each byte of the request is loaded once. */
static uint32_t serve_request(const struct pk_pop_result *pop) {
    size_t have = load_front(&chain, pop, request);
    struct fuse_in_header in = {0};
    struct pk_call call;
    if (have >= sizeof in) memcpy(&in, request, sizeof in);
    if (in.opcode == CAPITALS) return reply_capitals(pop, &in, have);
    uint32_t status = ask(&chain, &device, request, have, &call);
    if (status != PK_DONE) return status;
    status = answer(&call);
    if (status != PK_DONE && status != PK_NO_ROOM)
        status = pk_reply_err(&chain, call.ticket, EIO);
    return status == PK_NO_ROOM ? PK_DONE : status;
}

/* Serves the available chains. PK_IDLE: none is left. PK_OUT_OF_MEMORY: one is left, call again
 * later. 1 to 8: the queue is stopped, so set DEVICE_NEEDS_RESET. `notify`: interrupt the
 * driver. */
static uint32_t serve(bool *notify) {
    struct pk_pop_result pop;
    uint32_t status;
    *notify = false;
    while ((status = take_chain(&chain, &queue, &known, &pop)) == PK_DONE) {
        if (pop.fault)
            printf("Chain %u is pushed without a reply: %s\n", pop.head, pk_fault_name(pop.fault));
        else
            status = serve_request(&pop);
        if (status == PK_DONE) status = give_back(&chain, &queue, &marker, notify);
        if (status != PK_DONE) break;
    }
    /* a chain that was popped and isn't pushed */
    if (status != PK_IDLE) give_up(&chain, &queue, pop.ticket, &marker, notify);
    return status;
}

static void expect(uint32_t status, uint32_t wanted) {
    if (status == wanted) return;
    fprintf(stderr, "%s, and not %s\n", pk_status_name(status), pk_status_name(wanted));
    exit(1);
}

/* The driver notifies the queue, and enables its interrupt. */
static void kick(void) {
    bool notify;
    expect(serve(&notify), PK_IDLE);
    if (!notify) exit(1);
}

/* Device and queue go on from their record, as in another process that has memory and files. */
static void move(void) {
    uint8_t record[64];
    size_t len, count;
    expect(pk_save(&device, &queue, 1, record, sizeof record, &len), PK_DONE);
    expect(pk_restore(&device, &queue, 1, record, len - 1, &count), PK_RECORD_TRUNCATED);
    queue = (struct pk_queue){0};
    known = (struct offered){0};
    expect(pk_restore(&device, &queue, 1, record, len, &count), PK_DONE);
    printf("From a record of %zu bytes the device goes on\n", len);
}

int main(void) {
    memory = mmap(NULL, MEMORY, PROT_READ | PROT_WRITE, MAP_SHARED | MAP_ANONYMOUS, -1, 0);
    struct pk_region region = {.guest = 0, .len = MEMORY, .host = (uintptr_t)memory};
    if (memory == MAP_FAILED || !pk_is_compatible()) return 1;
    queue = (struct pk_queue){.desc = DESC, .avail = AVAIL, .used = USED, .size = SIZE};
    expect(pk_queue_begin(&queue, 0), PK_DONE);
    expect(pk_chain_set_memory(&chain, &device, &region, 1), PK_DONE);
    /* an earlier device may have left any flags */
    if (!set_notification(&chain, &queue, true, &marker)) return 1;
    guest_uses_a_file();
    guest_errs();
    print_written();
    move();
    guest_removes_it();
    pk_chain_free(&chain);
    munmap(memory, MEMORY);
    return 0;
}
