#include "chance.h"
#include <linux/fuse.h>
#include <string.h>

static _Thread_local uint64_t state;

void chance_begin(uint64_t seed) { state = seed; }

uint64_t chance(void) {
    state ^= state << 13;
    state ^= state >> 7;
    return state ^= state << 17;
}

uint64_t below(uint64_t n) { return chance() % n; }

uint64_t one_of(const uint64_t *list, size_t count) { return list[below(count)]; }

/* The length of an opcode's record, which names follow. */
static const uint8_t records[52] = {
    [FUSE_FORGET] = 8,
    [FUSE_GETATTR] = 16,
    [FUSE_SETATTR] = 88,
    [FUSE_MKNOD] = 16,
    [FUSE_MKDIR] = 8,
    [FUSE_RENAME] = 8,
    [FUSE_LINK] = 8,
    [FUSE_OPEN] = 8,
    [FUSE_READ] = 40,
    [FUSE_WRITE] = 40,
    [FUSE_RELEASE] = 24,
    [FUSE_FSYNC] = 16,
    [FUSE_SETXATTR] = 8,
    [FUSE_GETXATTR] = 8,
    [FUSE_LISTXATTR] = 8,
    [FUSE_FLUSH] = 24,
    [FUSE_INIT] = 64,
    [FUSE_OPENDIR] = 8,
    [FUSE_READDIR] = 40,
    [FUSE_RELEASEDIR] = 24,
    [FUSE_FSYNCDIR] = 16,
    [FUSE_ACCESS] = 8,
    [FUSE_CREATE] = 16,
    [FUSE_BATCH_FORGET] = 8,
    [FUSE_FALLOCATE] = 32,
    [FUSE_READDIRPLUS] = 40,
    [FUSE_RENAME2] = 16,
    [FUSE_LSEEK] = 24,
    [FUSE_COPY_FILE_RANGE] = 56,
};

static size_t put_record(uint8_t *at, uint32_t opcode) {
    size_t len = opcode < sizeof records && below(8) ? records[opcode]
                                                     : ONE_OF(0, 4, 8, 16, 24, 32, 40, 64, 88);
    for (size_t k = 0; k < len; k += 4) {
        uint32_t word = (uint32_t)ONE_OF(0, 0, 0, 0, 1, 2, 3, 7, 38, 4096, 8192, 0x8000, below(64),
                                         1 << 24 | below(20), chance());
        memcpy(at + k, &word, 4);
    }
    return len;
}

size_t some_request(uint8_t *at) {
    static const char *const names[] = {"file", "dir", "out",    "a",    "b",    "..",      ".",
                                        "a/b",  "",    "user.a", "pipe", "many", "absolute"};
    struct fuse_in_header head = {.opcode = (uint32_t)(below(20) ? below(52) : chance()),
                                  .unique = chance(),
                                  .nodeid = below(4) ? FUSE_ROOT_ID : below(64) << 24 | below(40),
                                  .uid = (uint32_t)below(2)};
    size_t len = sizeof head + put_record(at + sizeof head, head.opcode);
    for (uint64_t k = below(3); k > 0; k--) {
        const char *name = names[below(sizeof names / sizeof names[0])];
        memcpy(at + len, name, strlen(name) + 1);
        len += strlen(name) + 1;
    }
    head.len =
        (uint32_t)(below(10) ? len : ONE_OF(0, 39, 40, 0x101000, 0x101001, 0xffffffff, below(200)));
    memcpy(at, &head, sizeof head);
    return len;
}
