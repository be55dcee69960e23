/* A guest for monitor.c: a driver that writes its ring (VIRTIO 1.2, 2.7), one chain at a time, and
 * uses files. Don't copy it. Numbers are little-endian, as on x86-64. */
#include <fcntl.h>
#include <linux/fuse.h>
#include <linux/virtio_ring.h>
#include <stdatomic.h>
#include <stdint.h>
#include <stdio.h>
#include <string.h>
#include <sys/stat.h>

/* Guest addresses, and the queue's size. */
enum {
    PAGE = 4096,
    DESC = PAGE,
    AVAIL = 2 * PAGE,
    USED = 3 * PAGE,
    REQUEST = 4 * PAGE,
    ROOM = 8 * PAGE,
    MEMORY = 16 * PAGE,
    SIZE = 8
};

static uint8_t *memory; /* MEMORY bytes, from guest address 0 on */
static uint16_t offered;

static void draw(uint16_t index, uint64_t addr, uint32_t len, uint16_t flags) {
    struct vring_desc d = {addr, len, flags, (uint16_t)(index + 1)};
    memcpy(memory + DESC + sizeof d * index, &d, sizeof d);
}

static void make_available(uint32_t at, uint16_t value) {
    atomic_store_explicit((_Atomic uint16_t *)(void *)(memory + at), value, memory_order_release);
}

/* An opcode that no FUSE has, and this VMM serves. */
enum { CAPITALS = 0x1000 };

static void kick(void); /* the VMM's */

/* Makes a request of `len` bytes and a reply buffer of `room` bytes available, and notifies the
 * device. Returns the reply's length. */
static uint32_t offer(uint32_t len, uint32_t room) {
    struct vring_used_elem used;
    uint32_t turn = offered++ % SIZE;
    draw(0, REQUEST, len, VRING_DESC_F_NEXT);
    draw(1, ROOM, room, VRING_DESC_F_WRITE);
    make_available(AVAIL + 4 + 2 * turn, 0);
    make_available(AVAIL + 2, offered);
    kick();
    memcpy(&used, memory + USED + 4 + sizeof used * turn, sizeof used);
    return used.len;
}

/* A FUSE request: its arguments, and a name or data behind them. */
struct asked {
    const char *what;
    uint32_t opcode;
    uint64_t node;
    const void *args;
    size_t args_len;
    const char *text;
    size_t text_len;
};

/* Sends a request, and prints its reply. Returns the address of the reply behind its header. */
static const void *guest_asks(struct asked it, uint32_t room) {
    struct fuse_in_header in = {.opcode = it.opcode, .unique = offered, .nodeid = it.node};
    struct fuse_out_header out;
    in.len = (uint32_t)(sizeof in + it.args_len + it.text_len);
    memcpy(memory + REQUEST, &in, sizeof in);
    if (it.args) memcpy(memory + REQUEST + sizeof in, it.args, it.args_len);
    if (it.text) memcpy(memory + REQUEST + sizeof in + it.args_len, it.text, it.text_len);
    uint32_t len = offer(in.len, room);
    memcpy(&out, memory + ROOM, sizeof out);
    if (len == 0)
        printf("%s: no reply\n", it.what);
    else if (out.error)
        printf("%s: error %d\n", it.what, -out.error);
    else
        printf("%s: %zu bytes\n", it.what, len - sizeof out);
    return memory + ROOM + sizeof out;
}

static void guest_asks_for_all(const struct asked *all, size_t count) {
    for (size_t k = 0; k < count; k++) (void)guest_asks(all[k], PAGE);
}

#define ALL(array) (array), sizeof(array) / sizeof *(array)

static void guest_uses_a_file(void) {
    struct fuse_init_in init = {.major = 7, .minor = 38, .flags = FUSE_DO_READDIRPLUS};
    struct fuse_create_in create = {.mode = S_IFREG | 0644, .flags = O_RDWR};
    struct fuse_write_in write = {.size = 13};
    struct fuse_getattr_in get = {0};
    struct fuse_read_in read = {.size = 1000};
    const struct asked all[] = {
        {"INIT", FUSE_INIT, 0, &init, sizeof init, NULL, 0},
        {"LOOKUP greeting", FUSE_LOOKUP, 1, NULL, 0, "greeting", 9},
        {"CREATE greeting", FUSE_CREATE, 1, &create, sizeof create, "greeting", 9},
        {"CREATE greeting again", FUSE_CREATE, 1, &create, sizeof create, "greeting", 9},
        {"WRITE", FUSE_WRITE, 2, &write, sizeof write, "Good morning!", 13},
        {"LOOKUP greeting", FUSE_LOOKUP, 1, NULL, 0, "greeting", 9},
        {"GETATTR of the root", FUSE_GETATTR, 1, &get, sizeof get, NULL, 0},
        {"READDIR", FUSE_READDIR, 1, &read, sizeof read, NULL, 0},
        {"READDIRPLUS", FUSE_READDIRPLUS, 1, &read, sizeof read, NULL, 0},
    };
    guest_asks_for_all(ALL(all));
    const char *text =
        guest_asks((struct asked){"READ", FUSE_READ, 2, &read, sizeof read, NULL, 0}, PAGE);
    printf("The guest reads: %.13s\n", text);
    text = guest_asks((struct asked){"an opcode of the monitor's own", CAPITALS, 0, NULL, 0,
                                     "hello, monitor", 14},
                      PAGE);
    printf("The guest has in its memory: %.14s\n", text);
}

/* Requests that fail. */
static void guest_errs(void) {
    struct asked lookup = {
        "LOOKUP greeting, and a room that is too short", FUSE_LOOKUP, 1, NULL, 0, "greeting", 9};
    struct asked unknown = {"an opcode that nobody knows", 99, 1, NULL, 0, NULL, 0};
    (void)guest_asks(lookup, 100);
    (void)guest_asks(unknown, PAGE);
    printf("a request that ends outside the memory: %u bytes in all\n", offer(MEMORY, PAGE));
}

static void guest_removes_it(void) {
    struct fuse_setattr_in set = {.valid = FATTR_SIZE | FATTR_MODE, .size = 4, .mode = 0600};
    struct fuse_open_in open = {.flags = O_RDONLY};
    struct fuse_read_in read = {.size = 1000};
    struct fuse_release_in release = {0};
    struct fuse_forget_in forget = {.nlookup = 2};
    struct {
        struct fuse_batch_forget_in in;
        struct fuse_forget_one one[2];
    } batch = {{.count = 2}, {{.nodeid = 2, .nlookup = 1}, {.nodeid = 3, .nlookup = 1}}};
    const struct asked all[] = {
        {"SETATTR", FUSE_SETATTR, 2, &set, sizeof set, NULL, 0},
        {"OPEN", FUSE_OPEN, 2, &open, sizeof open, NULL, 0},
        {"UNLINK greeting", FUSE_UNLINK, 1, NULL, 0, "greeting", 9},
        {"LOOKUP greeting", FUSE_LOOKUP, 1, NULL, 0, "greeting", 9},
        {"READ", FUSE_READ, 2, &read, sizeof read, NULL, 0},
        {"RELEASE", FUSE_RELEASE, 2, &release, sizeof release, NULL, 0},
        {"FORGET", FUSE_FORGET, 2, &forget, sizeof forget, NULL, 0},
        {"BATCH_FORGET", FUSE_BATCH_FORGET, 0, &batch, sizeof batch, NULL, 0},
        {"READ", FUSE_READ, 2, &read, sizeof read, NULL, 0},
        {"DESTROY", FUSE_DESTROY, 0, NULL, 0, NULL, 0},
    };
    guest_asks_for_all(ALL(all));
}
