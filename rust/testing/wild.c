/* A guest's root that asks in order and for anything, by two queues: real nodes, open files and
 * names of all kinds, and numbers at their ends. Each request is answered, and the daemon lives;
 * alone.sh sees that nothing beside the directory changed, and that nothing panicked. */
#define _GNU_SOURCE
#include "chance.h"
#include "checks.h"
#include <linux/fuse.h>
#include <pthread.h>
#include <stdio.h>
#include <string.h>
#include <time.h>

enum { NODES = 48, FILES = 24, NAMES = 20, PLAIN = 5, FORMS = 40, LONG = 300 };

/* What a thread of the guest holds. */
static _Thread_local uint64_t nodes[NODES] = {ROOT}, files[FILES], file_nodes[FILES];
static _Thread_local struct reply answer;

/* How an opcode's record looks: its length, where an open file's number stands in it, where a
 * node's, and how many names are behind. */
struct form {
    uint32_t opcode;
    uint8_t len, names;
    int8_t file, node;
};

static const struct form forms[FORMS] = {{FUSE_LOOKUP, 0, 1, -1, -1},
                                         {FUSE_LOOKUP, 0, 1, -1, -1},
                                         {FUSE_FORGET, 8, 0, -1, -1},
                                         {FUSE_GETATTR, 16, 0, 8, -1},
                                         {FUSE_SETATTR, 88, 0, 8, -1},
                                         {FUSE_SETATTR, 88, 0, 8, -1},
                                         {FUSE_READLINK, 0, 0, -1, -1},
                                         {FUSE_SYMLINK, 0, 2, -1, -1},
                                         {FUSE_MKNOD, 16, 1, -1, -1},
                                         {FUSE_MKDIR, 8, 1, -1, -1},
                                         {FUSE_UNLINK, 0, 1, -1, -1},
                                         {FUSE_RMDIR, 0, 1, -1, -1},
                                         {FUSE_RENAME, 8, 2, -1, 0},
                                         {FUSE_RENAME2, 16, 2, -1, 0},
                                         {FUSE_LINK, 8, 1, -1, 0},
                                         {FUSE_OPEN, 8, 0, -1, -1},
                                         {FUSE_OPEN, 8, 0, -1, -1},
                                         {FUSE_READ, 40, 0, 0, -1},
                                         {FUSE_READ, 40, 0, 0, -1},
                                         {FUSE_WRITE, 40, 2, 0, -1},
                                         {FUSE_STATFS, 0, 0, -1, -1},
                                         {FUSE_RELEASE, 24, 0, 0, -1},
                                         {FUSE_FSYNC, 16, 0, 0, -1},
                                         {FUSE_SETXATTR, 8, 2, -1, -1},
                                         {FUSE_SETXATTR, 8, 2, -1, -1},
                                         {FUSE_GETXATTR, 8, 1, -1, -1},
                                         {FUSE_LISTXATTR, 8, 0, -1, -1},
                                         {FUSE_REMOVEXATTR, 0, 1, -1, -1},
                                         {FUSE_FLUSH, 24, 0, 0, -1},
                                         {FUSE_OPENDIR, 8, 0, -1, -1},
                                         {FUSE_READDIR, 40, 0, 0, -1},
                                         {FUSE_READDIRPLUS, 40, 0, 0, -1},
                                         {FUSE_RELEASEDIR, 24, 0, 0, -1},
                                         {FUSE_FSYNCDIR, 16, 0, 0, -1},
                                         {FUSE_ACCESS, 8, 0, -1, -1},
                                         {FUSE_CREATE, 16, 1, -1, -1},
                                         {FUSE_FALLOCATE, 32, 0, 0, -1},
                                         {FUSE_LSEEK, 24, 0, 0, -1},
                                         {FUSE_COPY_FILE_RANGE, 56, 0, 0, 16},
                                         {FUSE_SYNCFS, 8, 0, -1, -1}};

static const char *const names[NAMES] = {
    "file",     "dir",    "other",         "a",        "b",
    "\xff\xfe", "..",     "a/b",           "",         "out",
    "user.a",   "user.",  "user.\xff\xfe", "pipe",     "security.capability",
    "up",       "shared", "trusted.a",     "absolute", "system.posix_acl_access"};

static size_t put_name(uint8_t *at) {
    char long_name[LONG + 1];
    size_t len = (size_t)ONE_OF(1, 100, 254, 255, 256, LONG);
    memset(long_name, 'n', len);
    long_name[len] = 0;
    const char *name = below(12) == 0 ? long_name : names[below(below(3) ? PLAIN : NAMES)];
    memcpy(at, name, strlen(name) + 1);
    return strlen(name) + 1;
}

static uint64_t some_number(void) {
    return ONE_OF(0, 0, 0, 1, 2, 3, 4096, 4095, 8, 0x8000, 0100644, 0040755, 0x10000,
                  1ull << below(64), INT64_MAX, INT64_MIN, UINT64_MAX, chance(), below(64),
                  below(1 << 20));
}

/* A record: some of its words are ends of 64 bits, others of 32. */
static void put_record(uint8_t *at, size_t len) {
    for (size_t k = 0; k < len; k += 8) {
        uint64_t whole = some_number(), halves = (uint32_t)some_number() | some_number() << 32;
        memcpy(at + k, below(2) ? &whole : &halves, 8);
    }
}

/* One request; its node comes to `node`. */
static size_t put_request(const struct form *form, uint8_t *at, uint64_t *node) {
    uint64_t file = below(FILES), other = nodes[below(NODES)];
    size_t len = form->len;
    *node = below(2) ? ROOT : other;
    put_record(at, len);
    if (form->file >= 0) {
        memcpy(at + form->file, &files[file], 8);
        if (below(16)) *node = file_nodes[file];
    }
    if (form->opcode == FUSE_GETATTR && below(2)) memset(at, 0, 4);
    if (form->opcode == FUSE_SETATTR && below(2)) at[0] &= (uint8_t)~FATTR_FH;
    if (form->node >= 0) memcpy(at + form->node, &other, 8);
    if (form->opcode == FUSE_COPY_FILE_RANGE) memcpy(at + 24, &files[below(FILES)], 8);
    if (form->opcode == FUSE_OPEN && below(2))
        *node = other, memset(at, 0, 8), at[0] = (uint8_t)below(3);
    if (form->opcode == FUSE_CREATE && below(2))
        memset(at, 0, 16), at[0] = (uint8_t)below(3), at[5] = 1;
    if (form->opcode == FUSE_FORGET && below(2)) memset(at, 0, 8), at[0] = 1;
    /* Places are anywhere, and lengths fill no disk: FALLOC_FL_KEEP_SIZE is bounded by no limit of
     * files. */
    if (form->opcode == FUSE_FALLOCATE) memset(at + 18, 0, 6);
    if (form->opcode == FUSE_COPY_FILE_RANGE) memset(at + 42, 0, 6);
    for (unsigned k = 0; k < form->names; k++) {
        size_t more = put_name(at + len);
        uint32_t size = (uint32_t)more;
        if (k == 1 && form->opcode == FUSE_SETXATTR && below(8)) memcpy(at, &size, 4);
        if (k == 0 && form->opcode == FUSE_WRITE && below(8)) memcpy(at + 16, &size, 4);
        len += more;
    }
    return len;
}

/* What a reply gives the guest to hold. */
static void keep(uint32_t opcode, uint64_t node) {
    unsigned file = (unsigned)below(FILES);
    switch (opcode) {
    case FUSE_CREATE:
        memcpy(&files[file], answer.data + sizeof(struct fuse_entry_out), 8),
            memcpy(&file_nodes[file], answer.data, 8);
        break;
    case FUSE_OPEN:
    case FUSE_OPENDIR: memcpy(&files[file], answer.data, 8), file_nodes[file] = node; return;
    case FUSE_LOOKUP:
    case FUSE_MKNOD:
    case FUSE_MKDIR:
    case FUSE_SYMLINK: break;
    default: return;
    }
    if (answer.len >= 8) memcpy(&nodes[1 + below(NODES - 1)], answer.data, 8);
}

/* Asks once; whether it was done. */
static bool ask_one(size_t ring) {
    static _Thread_local uint8_t body[4096];
    const struct form *form = &forms[below(FORMS)];
    uint64_t node;
    size_t len = put_request(form, body, &node);
    if (form->opcode == FUSE_FORGET) {
        if (node == ROOT) return false; /* it could ask for nothing any more until the next INIT */
        front_send(&front, ring, FUSE_FORGET, node, body, len, 0);
        if (!front_wait(&front, ring, 20000)) die("FORGET isn't answered");
        return true;
    }
    front_ask(&front, ring, form->opcode, node, body, len, &answer);
    if (answer.error) return false;
    keep(form->opcode, node);
    return true;
}

static uint64_t seed;

static void *ask_until_over(void *counts) {
    size_t ring = 2;
    chance_begin(seed ^ ring);
    for (uint64_t *count = counts; !over; count[0]++) count[1] += ask_one(ring);
    return NULL;
}

void wild(unsigned seconds) {
    struct fuse_getattr_in getattr_in = {0};
    uint64_t counts[2][2] = {{0}};
    pthread_t other;
    seed = (uint64_t)time(NULL) * 0x9e3779b97f4a7c15u | 1;
    chance_begin(seed);
    front_start_ring(&front, 2, 0);
    pthread_create(&other, NULL, ask_until_over, counts[1]);
    for (time_t end = time(NULL) + seconds; time(NULL) < end; counts[0][0]++) {
        if (below(3000) == 0) begin_session(&front);
        counts[0][1] += ask_one(1);
    }
    over = true;
    pthread_join(other, NULL);
    begin_session(&front);
    front_ask(&front, 1, FUSE_GETATTR, ROOT, &getattr_in, sizeof getattr_in, &reply);
    expect("an orderly GETATTR", reply.error, 0);
    printf("a wild guest (%#llx): %llu and %llu requests, of which %llu and %llu were done\n",
           (unsigned long long)seed, (unsigned long long)counts[0][0],
           (unsigned long long)counts[1][0], (unsigned long long)counts[0][1],
           (unsigned long long)counts[1][1]);
}
