/* One attack of a guest's: attacks DAEMON DIR NAME SECONDS. Afterwards the guest's driver begins
 * again, and asks in order: the daemon has to answer. Ends with 0 if it does, with 2 if a file
 * outside DIR was read or made, and else with 1; then it says whether the daemon has ended. By any
 * daemon with virtiofsd's options. Beside DIR lies a file `secret`. */
#define _GNU_SOURCE
#include "chance.h"
#include "front.h"
#include <fcntl.h>
#include <linux/fuse.h>
#include <pthread.h>
#include <signal.h>
#include <stdio.h>
#include <stdlib.h>
#include <string.h>
#include <sys/mman.h>
#include <sys/socket.h>
#include <sys/stat.h>
#include <sys/time.h>
#include <sys/wait.h>
#include <time.h>
#include <unistd.h>

enum { ROOT = 1, SET_VRING_ADDR = 9, ADD_MEM_REG = 37, REM_MEM_REG = 38 };
enum { PATIENCE = 5000, OUTSIDE = 2, SCRIBBLERS = 3 };
/* Newer than some headers: flags of INIT's second word, and a kind of extension. */
enum { SECURITY_CTX = 1 << 0, CREATE_SUPP_GROUP = 1 << 2, EXT_GROUPS = 32 };

#define SLOT (1ull << 36)

static struct front front;
static struct reply reply;
static const char *directory;
static time_t end;
static _Atomic bool over;

/* Says whether the daemon has ended, and ends it. */
static void say_end(void) {
    int status;
    usleep(500000);
    puts(waitpid(front.pid, &status, WNOHANG) == front.pid ? "ENDED" : "ALIVE");
    kill(-front.pid, SIGKILL); /* it began a session of its own */
}

/* ------------------------------------------------------------- a driver */

static void begin_ring(void) {
    (void)front_stop_ring(&front, 1);
    memset(front_at(&front, desc_at(1)), 0, 0x4000);
    front.rings[1].offered = front.rings[1].seen = 0;
    front_start_ring(&front, 1, 0);
}

static bool ask(uint32_t opcode, uint64_t node, const void *body, size_t len) {
    front_send(&front, 1, opcode, node, body, len, 16 + sizeof reply.data);
    if (!front_wait(&front, 1, PATIENCE)) die("opcode %u isn't answered", opcode);
    front_read(&front, 1, &reply);
    return reply.error == 0;
}

static void begin(void) {
    struct fuse_init_in in = {.major = 7,
                              .minor = 38,
                              .max_readahead = 1 << 17,
                              .flags = ~0u,
                              .flags2 = SECURITY_CTX | CREATE_SUPP_GROUP};
    if (!ask(FUSE_INIT, 0, &in, sizeof in)) die("INIT: %s", strerror(reply.error));
}

/* An orderly session. */
static void ask_in_order(void) {
    struct fuse_getattr_in in = {0};
    begin_ring();
    begin();
    if (!ask(FUSE_GETATTR, ROOT, &in, sizeof in)) die("GETATTR: %s", strerror(reply.error));
}

/* One request in one piece, and a reply buffer in another. */
static void offer(const void *request, uint32_t len, uint32_t room) {
    uint64_t at = request_at(1);
    memcpy(front_at(&front, at), request, len);
    put_descriptor(&front, desc_at(1), 0, at, len, room ? 1 : 0, 1);
    put_descriptor(&front, desc_at(1), 1, room_at(1), room, 2, 0);
    front_offer(&front, 1, 0);
    front_kick(&front, 1);
    front_wait(&front, 1, 1000);
}

struct request {
    struct fuse_in_header head;
    uint8_t body[216];
};

/* A request with these bytes behind its header. */
static void offer_request(uint32_t opcode, uint64_t node, const void *body, uint32_t len,
                          uint32_t room) {
    struct request request = {
        .head = {.len = 40 + len, .opcode = opcode, .unique = 99, .nodeid = node}};
    memcpy(request.body, body, len);
    offer(&request, 40 + len, room);
}

/* ------------------------------------------------------------- requests */

static void small_reply_buffer(void) {
    struct fuse_read_in in = {.size = 4096};
    uint64_t node = look_up(&front, ROOT, "file");
    in.fh = open_node(&front, node, O_RDONLY);
    offer_request(FUSE_READ, node, &in, sizeof in, 8);
}

/* A MKDIR with 16 bytes of the directory's, and an extension of these words behind it. */
static void make_directory(const uint32_t *words, uint32_t len) {
    struct {
        struct fuse_mkdir_in in;
        char name[8];
        uint32_t words[16];
    } body = {.in = {.mode = 0755}, .name = "attack"};
    memcpy(body.words, words, len);
    offer_request(FUSE_MKDIR, ROOT, &body, 15 + len, 16 + 128);
}

static void short_extension(void) {
    static const uint32_t header[2] = {64, EXT_GROUPS};
    make_directory(header, sizeof header);
}

/* struct fuse_secctx_header, struct fuse_secctx, a name, and the label. */
static void bad_contexts(void) {
    enum { a = 0x61616161 };
    static const uint32_t contexts[8][8] = {{32, 2, 4, 0, 0x61, 1, 1, 1},
                                                             {32, 1, 0, 0, 0x61, 1, 1, 1},
                                                             {32, 1, 100, 0, 0x61, 1, 1, 1},
                                                             {32, 1, 4, 0, a, a, a, a},
                                                             {12, 1, 4, 0, 0, 0, 0, 0},
                                                             {8, 1, 0, 0, 0, 0, 0, 0},
                                                             {32, 1, ~0u, 0, 0x61, 1, 1, 1},
                                                             {32, ~0u, 4, 0, 0x61, 1, 1, 1}};
    for (size_t k = 0; k < 8; k++) {
        make_directory(contexts[k], contexts[k][0]);
        begin_ring();
    }
}

static void long_forget(void) {
    struct {
        struct fuse_batch_forget_in in;
        struct fuse_forget_one one;
    } body = {.in = {.count = 1000}, .one = {.nodeid = 2, .nlookup = 1}};
    offer_request(FUSE_BATCH_FORGET, 0, &body, sizeof body, 0);
}

static void long_value(void) {
    static const char body[] = "\x64\0\0\0\0\0\0\0user.x\0v"; /* 100 bytes */
    offer_request(FUSE_SETXATTR, ROOT, body, 16, 16);
}

static void inner_zero(void) { offer_request(FUSE_LOOKUP, ROOT, "fi\0e", 5, 16 + 128); }
static void short_request(void) { offer("\x28\0\0\0\x03\0\0\0", 8, 16 + 128); }

/* ------------------------------------------------------------- rings */

static void kick_and_wait(void) {
    front_kick(&front, 1);
    front_wait(&front, 1, 1000);
}

static void offer_head(uint16_t head) {
    front_offer(&front, 1, head);
    kick_and_wait();
}

static void outside(void) {
    put_descriptor(&front, desc_at(1), 0, 1ull << 50, 56, 1, 1);
    put_descriptor(&front, desc_at(1), 1, room_at(1), 120, 2, 0);
    offer_head(0);
}

static void index_beyond(void) {
    front.rings[1].offered = RING_SIZE + 1;
    atomic_store(index_at(&front, avail_at(1) + 2), RING_SIZE + 1);
    kick_and_wait();
}

static void head_beyond(void) { offer_head(RING_SIZE + 7); }

static void loop(void) {
    for (unsigned k = 0; k < 2; k++)
        put_descriptor(&front, desc_at(1), k, request_at(1), 56, 1, 1 - k);
    offer_head(0);
}

static void odd_table(void) {
    put_descriptor(&front, desc_at(1), 0, request_at(1), 17, 4, 0);
    offer_head(0);
}

static void nested_tables(void) {
    put_descriptor(&front, request_at(1), 0, request_at(1), 16, 4, 0);
    put_descriptor(&front, desc_at(1), 0, request_at(1), 16, 4, 0);
    offer_head(0);
}

/* A GETATTR whose reply buffer lies somewhere. */
static void get_attributes(uint64_t room) {
    struct fuse_in_header head = {.len = 56, .opcode = FUSE_GETATTR, .unique = 1, .nodeid = ROOT};
    memcpy(front_at(&front, request_at(1)), &head, sizeof head);
    put_descriptor(&front, desc_at(1), 0, request_at(1), 56, 1, 1);
    put_descriptor(&front, desc_at(1), 1, room, 120, 2, 0);
}

/* Each part of the ring lies over another, and the reply buffer over each part. */
static void overlapping(void) {
    static const uint64_t offsets[] = {0, 0x2000, 0x3000, 0x2ff0, 0x1ff0};
    uint64_t user = (uint64_t)(uintptr_t)front.memory, table = desc_at(1), avail = avail_at(1);
    for (size_t k = 0; k < 5; k++) {
        get_attributes(table + offsets[k]);
        offer_head(0);
        begin_ring();
    }
    const uint64_t used[] = {table, table + 16, avail, avail + 4};
    for (size_t k = 0; k < 4; k++) {
        struct {
            uint32_t index, flags;
            uint64_t desc, used, avail, log;
        } address = {1, 0, user + table, user + used[k], user + avail, used[k]};
        front_tell(&front, SET_VRING_ADDR, &address, sizeof address, NULL, 0);
        get_attributes(room_at(1));
        for (unsigned n = 0; n < 4; n++) offer_head(0);
        begin_ring();
    }
}

/* ------------------------------------------------------------- tables and requests */

static void scribble(uint64_t seed) {
    static const uint32_t lens[] = {0, 8, 16, 40, 56, 120, 4096};
    chance_begin(seed);
    for (unsigned k = 0;; k++) {
        uint64_t word = chance(), at = below(4) ? request_at(1) + below(0x1000) : word;
        unsigned slot = (unsigned)below(RING_SIZE);
        switch (below(4)) {
        case 0:
            put_descriptor(&front, desc_at(1), slot, at, lens[below(7)], (unsigned)below(8),
                           (unsigned)below(RING_SIZE));
            break;
        case 1: some_request(front_at(&front, request_at(1) + 0x100 * below(16))); break;
        case 2: memcpy(front_at(&front, request_at(1) + below(0x1000)), &word, below(9)); break;
        default:
            atomic_store(index_at(&front, avail_at(1) + 4 + 2 * slot), (uint16_t)below(RING_SIZE));
        }
        if (k % 4096 == 0 && time(NULL) >= end) _exit(0);
    }
}

static void scribbled(void) {
    pid_t scribblers[SCRIBBLERS];
    for (uint64_t k = 0; k < SCRIBBLERS; k++)
        if ((scribblers[k] = fork()) == 0) scribble(k + 1);
    while (time(NULL) < end) {
        for (unsigned k = 0; k < 16; k++) front_offer(&front, 1, (uint16_t)below(RING_SIZE));
        front_kick(&front, 1);
        if (!front_wait(&front, 1, 100)) begin_ring();
    }
    /* they are over before the driver asks in order */
    for (unsigned k = 0; k < SCRIBBLERS; k++) (void)waitpid(scribblers[k], NULL, 0);
}

/* ------------------------------------------------------------- memory slots */

/* Requests whose reply buffer lies in the slot. */
static void *ask_on(void *none) {
    get_attributes(SLOT);
    while (!over) {
        front_offer(&front, 1, 0);
        front_kick(&front, 1);
        if (!front_wait(&front, 1, PATIENCE)) die("a chain isn't returned");
    }
    return none;
}

static void slots(void) {
    uint64_t region[5] = {0, SLOT, 1 << 20, 1ull << 46, 0};
    int fd = memfd_create("more", MFD_CLOEXEC);
    pthread_t asker;
    if (fd < 0 || ftruncate(fd, 1 << 20)) die("no memory");
    pthread_create(&asker, NULL, ask_on, NULL);
    for (unsigned k = 0; k < 1000; k++) {
        if (front_tell(&front, ADD_MEM_REG, region, sizeof region, &fd, 1))
            die("no slot is added");
        if (front_tell(&front, REM_MEM_REG, region, sizeof region, NULL, 0))
            die("no slot is removed");
    }
    over = true;
    pthread_join(asker, NULL);
}

/* ------------------------------------------------------------- files outside */

/* Reads the file of the last entry: if it is the secret one, that is the end. */
static void look_into(void) {
    struct fuse_entry_out entry;
    struct fuse_open_in open_in = {.flags = O_RDONLY};
    struct fuse_open_out out;
    struct fuse_read_in in = {.size = 4096};
    memcpy(&entry, reply.data, sizeof entry);
    if (!ask(FUSE_OPEN, entry.nodeid, &open_in, sizeof open_in)) return;
    memcpy(&out, reply.data, sizeof out);
    in.fh = out.fh;
    if (ask(FUSE_READ, entry.nodeid, &in, sizeof in) && memmem(reply.data, reply.len, "secret", 6))
        exit(OUTSIDE);
}

static void outward_names(void) {
    static const char *const names[] = {"../secret", "dir/../../secret", "/etc/../etc/passwd"};
    for (size_t k = 0; k < 3; k++)
        if (ask(FUSE_LOOKUP, ROOT, names[k], strlen(names[k]) + 1)) {
            if (k == 2) exit(OUTSIDE);
            look_into();
        }
    if (ask(FUSE_LOOKUP, ROOT, "..", 3)) {
        struct fuse_entry_out entry;
        memcpy(&entry, reply.data, sizeof entry);
        if (ask(FUSE_LOOKUP, entry.nodeid, "secret", 7)) look_into();
    }
    struct {
        struct fuse_mkdir_in in;
        char name[12];
    } make = {{.mode = 0755}, "../attacked"};
    char path[300];
    struct stat made;
    ask(FUSE_MKDIR, ROOT, &make, sizeof make);
    snprintf(path, sizeof path, "%s/../attacked", directory);
    if (!stat(path, &made)) exit(rmdir(path) ? 1 : OUTSIDE);
}

/* `race` is a directory, and the next moment a link to the directory that has the secret. */
static void *swap(void *none) {
    char one[300], other[300];
    snprintf(one, sizeof one, "%s/race", directory);
    snprintf(other, sizeof other, "%s/race-link", directory);
    while (!over)
        if (renameat2(AT_FDCWD, one, AT_FDCWD, other, RENAME_EXCHANGE)) die("no exchange");
    return none;
}

static void swapped(void) {
    pthread_t swapper;
    struct fuse_entry_out entry;
    pthread_create(&swapper, NULL, swap, NULL);
    while (time(NULL) < end) {
        if (!ask(FUSE_LOOKUP, ROOT, "race", 5)) continue;
        memcpy(&entry, reply.data, sizeof entry);
        if (ask(FUSE_LOOKUP, entry.nodeid, "secret", 7)) look_into();
        if (ask(FUSE_LOOKUP, ROOT, "race/secret", 12)) look_into();
    }
    over = true;
    pthread_join(swapper, NULL);
}

/* ------------------------------------------------------------- all of them */

static const struct attack {
    const char *name;
    void (*make)(void);
    const char *options[3];
} attacks[] = {{"small-reply-buffer", small_reply_buffer, {NULL}},
               {"short-extension", short_extension, {NULL}},
               {"long-forget", long_forget, {NULL}},
               {"long-value", long_value, {NULL}},
               {"bad-contexts", bad_contexts, {"--security-label", NULL}},
               {"inner-zero", inner_zero, {NULL}},
               {"short-request", short_request, {NULL}},
               {"outside", outside, {NULL}},
               {"index-beyond", index_beyond, {NULL}},
               {"head-beyond", head_beyond, {NULL}},
               {"loop", loop, {NULL}},
               {"odd-table", odd_table, {NULL}},
               {"nested-tables", nested_tables, {NULL}},
               {"overlapping", overlapping, {NULL}},
               {"scribbled", scribbled, {NULL}},
               {"slots", slots, {NULL}},
               {"outward-names", outward_names, {"--sandbox", "none", NULL}},
               {"swapped", swapped, {"--sandbox", "none", NULL}}};

int main(int argc, char **argv) {
    const struct attack *attack = attacks;
    struct timeval patience = {.tv_sec = PATIENCE / 1000};
    if (argc < 5) die("usage: attacks DAEMON DIR NAME SECONDS");
    while (strcmp(attack->name, argv[3]))
        if (++attack == attacks + sizeof attacks / sizeof *attacks) die("no such attack");
    directory = argv[2];
    chance_begin(7);
    front_begin(&front, argv[1], directory, attack->options);
    atexit(say_end);
    setsockopt(front.connection, SOL_SOCKET, SO_RCVTIMEO, &patience, sizeof patience);
    front_set_up(&front);
    front_start_ring(&front, 1, 0);
    begin();
    end = time(NULL) + (time_t)strtoul(argv[4], NULL, 10);
    attack->make();
    ask_in_order();
    return 0;
}
