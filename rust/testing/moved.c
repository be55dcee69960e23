/* Files that the guest has open when it moves, with flags that don't hold on the host: state DAEMON
 * DIR flags. With --writeback among OPTIONS, also of a file that it opened for writing alone. */
#define _GNU_SOURCE
#include "moved.h"
#include <errno.h>
#include <fcntl.h>
#include <linux/fuse.h>
#include <stdio.h>
#include <string.h>

/* Flags whose number in the state is as long with the two more. */
enum {
    MOST_STATE = 1 << 15,
    PLAIN = O_RDWR | O_SYNC | O_NONBLOCK,
    RAW = PLAIN | O_APPEND | O_DIRECT,
    MARK_LEN = 8,
    SUM_LEN = 8,
    RESET_DEVICE = 34
};

struct file {
    uint64_t node, handle;
    uint32_t flags;
};

static struct reply reply;

static struct file create(struct front *front, const char *name, uint32_t flags) {
    struct {
        struct fuse_create_in in;
        char name[16];
    } create = {.in = {.flags = flags | O_CREAT, .mode = 0600}};
    struct fuse_entry_out entry;
    struct fuse_open_out out;
    memcpy(create.name, name, strlen(name) + 1);
    front_ask(front, 1, FUSE_CREATE, 1, &create, sizeof create.in + strlen(name) + 1, &reply);
    if (reply.error) die("CREATE %s: %s", name, strerror(reply.error));
    memcpy(&entry, reply.data, sizeof entry);
    memcpy(&out, reply.data + sizeof entry, sizeof out);
    return (struct file){entry.nodeid, out.fh, flags};
}

/* A page of the guest's cache that is written back, and none of the file's ends. */
static void write_page(struct front *front, struct file file, const char *text) {
    struct {
        struct fuse_write_in in;
        char text[16];
    } write = {.in = {.fh = file.handle,
                      .size = (uint32_t)strlen(text),
                      .write_flags = FUSE_WRITE_CACHE,
                      .flags = file.flags}};
    memcpy(write.text, text, strlen(text));
    front_ask(front, 1, FUSE_WRITE, file.node, &write, sizeof write.in + strlen(text), &reply);
    if (reply.error) die("WRITE of a file with flags %#o: %s", file.flags, strerror(reply.error));
}

static void must_have(struct front *front, struct file file, const char *text) {
    struct fuse_read_in in = {.fh = file.handle, .size = 4096, .flags = file.flags};
    front_ask(front, 1, FUSE_READ, file.node, &in, sizeof in, &reply);
    if (reply.error) die("READ of a file with flags %#o: %s", file.flags, strerror(reply.error));
    if (reply.len != strlen(text) || memcmp(reply.data, text, reply.len))
        die("a file with flags %#o has other bytes", file.flags);
}

static void overwrite(struct front *front, struct file file, const char *before,
                      const char *after) {
    if (before) must_have(front, file, before);
    write_page(front, file, after);
    must_have(front, file, after);
}

/* The number of flags as postcard has them: zigzag, seven bits a byte. */
static void number(uint8_t bytes[4], uint32_t flags) {
    for (unsigned k = 0; k < 4; k++)
        bytes[k] = (uint8_t)(flags * 2 >> 7 * k & 0x7f) | (k < 3 ? 0x80 : 0);
}

size_t as_virtiofsds(uint8_t *state, size_t len) {
    uint32_t record;
    memcpy(&record, state + len - MARK_LEN - SUM_LEN - 4, sizeof record);
    if (state[0] != 0x81 || state[1] != 0) die("the state begins otherwise");
    len -= MARK_LEN + SUM_LEN + 4 + record + 1;
    memmove(state + 1, state + 2, len - 1);
    state[0] = 1;
    return len;
}

/* The flags that the guest asked for, as virtiofsd has them. With --writeback the guest opened the
 * file for writing alone, and reads pages of it all the same. */
static void make_raw(uint8_t *state, size_t len, bool writes_back) {
    uint8_t plain[4], raw[4];
    number(plain, PLAIN);
    number(raw, writes_back ? RAW ^ O_RDWR ^ O_WRONLY : RAW);
    uint8_t *at = memmem(state, len, plain, sizeof plain);
    if (!at) die("the state has no such flags");
    memcpy(at, raw, sizeof raw);
}

void move_flags(struct front *front, bool writes_back, size_t (*save)(uint8_t *),
                bool (*load)(const uint8_t *, size_t)) {
    static uint8_t state[MOST_STATE];
    struct file appended = create(front, "appended", O_RDWR | O_APPEND),
                direct = create(front, "direct", O_RDWR | O_DIRECT);
    struct file raw = create(front, "raw", PLAIN), opened = raw, written = {0};
    opened.handle = open_node(front, raw.node, O_RDWR | O_APPEND | O_DIRECT);
    if (writes_back) written = create(front, "written", O_WRONLY);
    overwrite(front, appended, NULL, "at first");
    overwrite(front, appended, "at first", "and then");
    overwrite(front, direct, NULL, "odd");
    overwrite(front, raw, NULL, "raw");
    if (writes_back) overwrite(front, written, NULL, "seen");
    for (int from = 0; from < 2; from++) {
        if (front_stop_ring(front, 1) != front->rings[1].offered) die("another position");
        size_t len = save(state);
        if (from == 1) {
            len = as_virtiofsds(state, len);
            make_raw(state, len, writes_back);
        }
        if (front_tell(front, RESET_DEVICE, NULL, 0, NULL, 0)) die("no reset");
        if (!load(state, len)) die("the state is refused");
        front_start_ring(front, 1, front->rings[1].offered);
        overwrite(front, appended, "and then", "and then");
        overwrite(front, direct, "odd", "ODD");
        overwrite(front, direct, "ODD", "odd");
        overwrite(front, opened, "raw", "RAW");
        overwrite(front, raw, "RAW", "raw");
        if (writes_back) overwrite(front, written, "seen", "SEEN");
        if (writes_back) overwrite(front, written, "SEEN", "seen");
    }
    printf("state: files that were open with flags of the guest's are written where they were to "
           "be\n");
}
