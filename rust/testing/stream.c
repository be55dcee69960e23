#define _GNU_SOURCE
#include "stream.h"
#include <errno.h>
#include <fcntl.h>
#include <linux/fuse.h>
#include <poll.h>
#include <stdio.h>
#include <stdlib.h>
#include <string.h>
#include <time.h>
#include <unistd.h>

/* A slot's request and reply, in the stretches of its ring. Nodes and handles come from the
 * back-end. */
enum { SLOT_LEN = 0x8000, PART = 1500, NAMES = 60, OPEN_FLAGS = 02 };

/* The steps of a round. */
enum step {
    CREATE,
    WRITE,
    READ,
    LOOK_UP,
    RENAME,
    RENAME_AGAIN,
    LOG,
    LIST,
    UNLINK_OPEN,
    WRITE_REMOVED,
    READ_REMOVED,
    RELEASE,
    FORGET,
    UNLINK,
    GONE,
    STEPS
};

static double now_ms(void) {
    struct timespec t;
    clock_gettime(CLOCK_MONOTONIC, &t);
    return (double)t.tv_sec * 1e3 + (double)t.tv_nsec / 1e6;
}

static uint8_t byte_of(const struct stream_ring *r, const struct slot *slot, uint64_t at) {
    uint64_t x = at * 2654435761u + r->ring * 97 + (uint64_t)(slot - r->slots) * 131 + slot->round;
    return (uint8_t)(x >> 7 ^ x);
}

/* The long file's bytes don't depend on the round. */
static uint8_t logged_byte(const struct stream_ring *r, const struct slot *slot, uint64_t at) {
    uint64_t x = at * 40503u + r->ring * 7 + (uint64_t)(slot - r->slots) * 13;
    return (uint8_t)(x >> 5 ^ x);
}

static size_t number_of(const struct stream_ring *r, const struct slot *slot) {
    return (size_t)(slot - r->slots);
}

static uint8_t *request_of(const struct stream_ring *r, const struct slot *slot) {
    return front_at(r->stream->front, request_at(r->ring) + SLOT_LEN * number_of(r, slot));
}

static uint8_t *reply_of(const struct stream_ring *r, const struct slot *slot) {
    return front_at(r->stream->front, room_at(r->ring) + SLOT_LEN * number_of(r, slot));
}

/* Offers a request with a body of two parts, and a reply of at most so many bytes. */
static void send(struct stream_ring *r, struct slot *slot, uint32_t opcode, uint64_t node,
                 const void *body, size_t len, const char *names, size_t names_len,
                 uint32_t room) {
    struct front *front = r->stream->front;
    size_t number = number_of(r, slot);
    unsigned head = 2 * (unsigned)number;
    struct fuse_in_header in = {.len = (uint32_t)(sizeof in + len + names_len),
                                .opcode = opcode,
                                .unique = ++slot->unique * 256 + r->ring * SLOTS + number,
                                .nodeid = node};
    uint8_t *at = request_of(r, slot);
    memcpy(at, &in, sizeof in);
    if (len) memcpy(at + sizeof in, body, len);
    if (names_len) memcpy(at + sizeof in + len, names, names_len);
    uint32_t whole = room ? room + (uint32_t)sizeof(struct fuse_out_header) : 0;
    memset(reply_of(r, slot), 0x5a, whole + 64);
    put_descriptor(front, desc_at(r->ring), head, request_at(r->ring) + SLOT_LEN * number, in.len,
                   whole ? 1 : 0, head + 1);
    if (whole)
        put_descriptor(front, desc_at(r->ring), head + 1, room_at(r->ring) + SLOT_LEN * number,
                       whole, 2, 0);
    slot->opcode = opcode;
    slot->room = room;
    slot->is_busy = true;
    front_offer(front, r->ring, (uint16_t)head);
    front_kick(front, r->ring);
}

static void name(char *to, size_t len, char first, const struct slot *slot) {
    snprintf(to, len, "%c%u", first, slot->round);
}

static void rename_to(struct stream_ring *r, struct slot *slot, char from, char to) {
    struct fuse_rename_in in = {.newdir = slot->dir};
    char names[40];
    name(names, 20, from, slot);
    size_t len = strlen(names) + 1;
    name(names + len, 20, to, slot);
    send(r, slot, FUSE_RENAME, slot->dir, &in, sizeof in, names, len + strlen(names + len) + 1, 8);
}

static void write_part(struct stream_ring *r, struct slot *slot, uint64_t node, uint64_t handle,
                       uint64_t offset, bool is_log) {
    struct fuse_write_in in = {.fh = handle, .offset = offset, .size = PART};
    char bytes[PART];
    for (size_t k = 0; k < PART; k++)
        bytes[k] = (char)(is_log ? logged_byte(r, slot, offset + k) : byte_of(r, slot, offset + k));
    send(r, slot, FUSE_WRITE, node, &in, sizeof in, bytes, PART, sizeof(struct fuse_write_out));
}

static void read_part(struct stream_ring *r, struct slot *slot, uint64_t offset) {
    struct fuse_read_in in = {.fh = slot->handle, .offset = offset, .size = PART};
    send(r, slot, FUSE_READ, slot->node, &in, sizeof in, NULL, 0, PART);
}

static void by_name(struct stream_ring *r, struct slot *slot, uint32_t opcode, char first) {
    char text[20];
    name(text, sizeof text, first, slot);
    send(r, slot, opcode, slot->dir, NULL, 0, text, strlen(text) + 1,
         sizeof(struct fuse_entry_out));
}

static void send_step(struct stream_ring *r, struct slot *slot) {
    char text[20];
    switch ((enum step)slot->step) {
    case CREATE: {
        struct fuse_create_in in = {.flags = O_CREAT | O_EXCL | OPEN_FLAGS, .mode = 0644};
        name(text, sizeof text, 'f', slot);
        send(r, slot, FUSE_CREATE, slot->dir, &in, sizeof in, text, strlen(text) + 1,
             sizeof(struct fuse_entry_out) + sizeof(struct fuse_open_out));
        break;
    }
    case WRITE: write_part(r, slot, slot->node, slot->handle, 0, false); break;
    case READ: read_part(r, slot, 0); break;
    case LOOK_UP: by_name(r, slot, FUSE_LOOKUP, 'f'); break;
    case RENAME: rename_to(r, slot, 'f', 'g'); break;
    case RENAME_AGAIN: rename_to(r, slot, 'g', 'h'); break;
    case LOG: write_part(r, slot, slot->log_node, slot->log_handle, slot->logged, true); break;
    case LIST: {
        struct fuse_read_in in = {.fh = slot->dir_handle, .offset = slot->dir_at, .size = 256};
        send(r, slot, FUSE_READDIR, slot->dir, &in, sizeof in, NULL, 0, 256);
        break;
    }
    case UNLINK_OPEN: by_name(r, slot, FUSE_UNLINK, 'h'); break;
    case WRITE_REMOVED: write_part(r, slot, slot->node, slot->handle, PART, false); break;
    case READ_REMOVED: read_part(r, slot, PART); break;
    case RELEASE: {
        struct fuse_release_in in = {.fh = slot->handle};
        send(r, slot, FUSE_RELEASE, slot->node, &in, sizeof in, NULL, 0, 8);
        break;
    }
    case FORGET: {
        struct fuse_forget_in in = {.nlookup = 2};
        send(r, slot, FUSE_FORGET, slot->node, &in, sizeof in, NULL, 0, 0);
        break;
    }
    case UNLINK: by_name(r, slot, FUSE_UNLINK, 'h'); break;
    case GONE: by_name(r, slot, FUSE_LOOKUP, 'h'); break;
    case STEPS: die("no such step");
    }
}

static void check_bytes(const struct stream_ring *r, const struct slot *slot, const uint8_t *bytes,
                        uint32_t len, uint64_t offset) {
    if (len != PART) die("ring %zu slot %zu: READ has %u bytes", r->ring, number_of(r, slot), len);
    for (size_t k = 0; k < PART; k++)
        if (bytes[k] != byte_of(r, slot, offset + k))
            die("ring %zu slot %zu: byte %zu of a READ is wrong", r->ring, number_of(r, slot), k);
}

/* Each name of the directory comes once. Another look begins behind the last. */
static void check_names(struct slot *slot, const uint8_t *bytes, uint32_t len) {
    for (uint32_t at = 0; at < len;) {
        struct fuse_dirent entry;
        memcpy(&entry, bytes + at, sizeof entry);
        const char *text = (const char *)bytes + at + FUSE_NAME_OFFSET;
        slot->names += entry.namelen > 4 && !memcmp(text, "keep", 4);
        slot->dir_at = entry.off;
        at += (uint32_t)FUSE_DIRENT_ALIGN(FUSE_NAME_OFFSET + entry.namelen);
    }
    if (len) return;
    if (slot->names != NAMES)
        die("a directory has %u names of %d, at %llu of round %u", slot->names, NAMES,
            (unsigned long long)slot->dir_at, slot->round);
    slot->names = 0;
    slot->dir_at = 0;
}

static void check_step(struct stream_ring *r, struct slot *slot, const uint8_t *data,
                       uint32_t len) {
    struct fuse_entry_out entry;
    switch ((enum step)slot->step) {
    case CREATE: {
        struct fuse_open_out open;
        if (len != sizeof entry + sizeof open) die("CREATE has %u bytes", len);
        memcpy(&entry, data, sizeof entry);
        memcpy(&open, data + sizeof entry, sizeof open);
        slot->node = entry.nodeid;
        slot->handle = open.fh;
        break;
    }
    case LOOK_UP:
        memcpy(&entry, data, sizeof entry);
        if (len != sizeof entry || entry.nodeid != slot->node) die("LOOKUP finds another node");
        if (entry.attr.size != PART) die("LOOKUP: another size");
        break;
    case READ: check_bytes(r, slot, data, len, 0); break;
    case READ_REMOVED: check_bytes(r, slot, data, len, PART); break;
    case LOG: slot->logged += PART; /* fall through */
    case WRITE:
    case WRITE_REMOVED:
        if (len != sizeof(struct fuse_write_out) || data[0] != (PART & 0xff)) die("a short WRITE");
        break;
    case LIST: check_names(slot, data, len); break;
    case RENAME:
    case RENAME_AGAIN:
    case UNLINK_OPEN:
    case RELEASE:
    case FORGET:
    case UNLINK:
    case GONE:
    case STEPS: break;
    }
}

/* Whether a step belongs to the rounds of this stream. */
static bool is_of(const struct stream *stream, enum step step) {
    if (step == UNLINK_OPEN || step == WRITE_REMOVED || step == READ_REMOVED)
        return stream->unlinks_open;
    return step != UNLINK || !stream->unlinks_open;
}

static void take_reply(struct stream_ring *r, unsigned head, uint32_t len) {
    struct slot *slot = &r->slots[head / 2];
    struct fuse_out_header out = {0};
    if (head / 2 >= SLOTS || head % 2 || !slot->is_busy) die("a chain that isn't in flight");
    slot->is_busy = false;
    if (slot->opcode == FUSE_FORGET) {
        if (len) die("FORGET has a reply");
    } else {
        memcpy(&out, reply_of(r, slot), sizeof out);
        if (out.len != len || out.unique != slot->unique * 256 + r->ring * SLOTS + head / 2)
            die("ring %zu slot %u: opcode %u has another's reply", r->ring, head / 2,
                slot->opcode);
        int wanted = slot->step == GONE ? -ENOENT : 0;
        if (out.error != wanted)
            die("ring %zu slot %u: opcode %u of step %u: %s", r->ring, head / 2, slot->opcode,
                slot->step, strerror(-out.error));
    }
    if (!out.error)
        check_step(r, slot, reply_of(r, slot) + sizeof out, len ? len - (uint32_t)sizeof out : 0);
    r->requests++;
    atomic_fetch_add(&r->stream->requests, 1);
    do slot->step++;
    while (slot->step < STEPS && !is_of(r->stream, (enum step)slot->step));
    if (slot->step == STEPS) {
        slot->step = CREATE;
        slot->round++;
    }
}

/* All used elements that are new. Returns how many. */
static unsigned take_replies(struct stream_ring *r) {
    struct front *front = r->stream->front;
    uint16_t used =
        atomic_load_explicit(index_at(front, used_at(r->ring) + 2), memory_order_acquire);
    unsigned count = (uint16_t)(used - r->seen);
    if (count > SLOTS) die("ring %zu: %u replies at once", r->ring, count);
    for (unsigned k = 0; k < count; k++, r->seen++) {
        uint32_t element[2];
        memcpy(element, front_at(front, used_at(r->ring)) + 4 + 8 * (r->seen % RING_SIZE),
               sizeof element);
        take_reply(r, element[0], element[1]);
    }
    return count;
}

/* Sends for each slot that waits. Returns how many requests are in flight. */
static size_t send_all(struct stream_ring *r, bool stops) {
    size_t busy = 0;
    for (size_t k = 0; k < r->stream->slots; k++) {
        struct slot *slot = &r->slots[k];
        if (!slot->is_busy && !(stops && slot->step == CREATE)) send_step(r, slot);
        busy += slot->is_busy;
    }
    return busy;
}

static void want_call(struct stream_ring *r) {
    struct front *front = r->stream->front;
    if (front->has_event_index)
        atomic_store_explicit(index_at(front, avail_at(r->ring) + 4 + 2 * RING_SIZE), r->seen,
                              memory_order_relaxed);
    else
        atomic_store_explicit(index_at(front, avail_at(r->ring)), 0, memory_order_relaxed);
    atomic_thread_fence(memory_order_seq_cst);
}

/* A thread of the driver: sleeps only until it is interrupted. */
static void *serve_ring(void *argument) {
    struct stream_ring *r = argument;
    struct front *front = r->stream->front;
    double last = now_ms();
    while (send_all(r, atomic_load(&r->stream->stops))) {
        want_call(r);
        unsigned count = take_replies(r);
        if (count == 0) {
            struct pollfd event = {front->rings[r->ring].call, POLLIN, 0};
            uint64_t word;
            if (poll(&event, 1, 20000) <= 0) {
                uint16_t used = atomic_load(index_at(front, used_at(r->ring) + 2));
                die("ring %zu: no interrupt in 20 s, and %u replies", r->ring,
                    (uint16_t)(used - r->seen));
            }
            if (read(event.fd, &word, sizeof word) < 0 && errno != EAGAIN) die("no call");
            continue;
        }
        double now = now_ms();
        if (now - last > r->longest) r->longest = now - last;
        last = now;
    }
    return NULL;
}

double stream_gap(struct stream *stream) {
    double gap = 0;
    for (size_t ring = 1; ring < RINGS; ring++) {
        if (stream->rings[ring].longest > gap) gap = stream->rings[ring].longest;
        stream->rings[ring].longest = 0;
    }
    return gap;
}

static uint64_t make_dir(struct front *front, const char *text) {
    static struct reply reply;
    struct {
        struct fuse_mkdir_in in;
        char name[40];
    } body = {.in = {.mode = 0755}};
    struct fuse_entry_out entry;
    snprintf(body.name, sizeof body.name, "%s", text);
    front_ask(front, 1, FUSE_MKDIR, 1, &body, (uint32_t)(sizeof body.in + strlen(text) + 1),
              &reply);
    if (reply.error) die("MKDIR %s: %s", text, strerror(reply.error));
    memcpy(&entry, reply.data, sizeof entry);
    return entry.nodeid;
}

static uint64_t open_dir(struct front *front, uint64_t node) {
    static struct reply reply;
    struct fuse_open_in in = {0};
    struct fuse_open_out out;
    front_ask(front, 1, FUSE_OPENDIR, node, &in, sizeof in, &reply);
    if (reply.error) die("OPENDIR: %s", strerror(reply.error));
    memcpy(&out, reply.data, sizeof out);
    return out.fh;
}

static void make_file(const char *dir, const char *folder, const char *text) {
    char path[400];
    snprintf(path, sizeof path, "%s/%s/%s", dir, folder, text);
    int fd = open(path, O_CREAT | O_WRONLY, 0644);
    if (fd < 0) die("%s: %s", path, strerror(errno));
    close(fd);
}

void stream_begin(struct stream *stream, struct front *front, size_t slots, bool unlinks_open) {
    static unsigned serial;
    *stream = (struct stream){
        .front = front, .slots = slots, .unlinks_open = unlinks_open, .serial = serial++};
    for (size_t ring = 1; ring < RINGS; ring++) {
        for (size_t k = 0; k < slots; k++) {
            struct slot *slot = &stream->rings[ring].slots[k];
            char folder[40], text[24];
            snprintf(folder, sizeof folder, "slot-%u-%zu-%zu", stream->serial, ring, k);
            slot->dir = make_dir(front, folder);
            for (unsigned n = 0; n < NAMES; n++) {
                snprintf(text, sizeof text, "keep%u", n);
                make_file(front->dir, folder, text);
            }
            make_file(front->dir, folder, "log");
            slot->log_node = look_up(front, slot->dir, "log");
            slot->log_handle = open_node(front, slot->log_node, O_WRONLY | O_APPEND);
            slot->dir_handle = open_dir(front, slot->dir);
        }
    }
    for (size_t ring = 1; ring < RINGS; ring++) {
        struct stream_ring *r = &stream->rings[ring];
        r->stream = stream;
        r->ring = ring;
        r->seen = front->rings[ring].offered;
        if (pthread_create(&r->thread, NULL, serve_ring, r)) die("no thread");
    }
}

static void check_log(const struct stream_ring *r, const struct slot *slot) {
    char path[400];
    snprintf(path, sizeof path, "%s/slot-%u-%zu-%zu/log", r->stream->front->dir,
             r->stream->serial, r->ring, number_of(r, slot));
    FILE *file = fopen(path, "r");
    if (!file) die("%s: %s", path, strerror(errno));
    for (uint64_t at = 0; at < slot->logged; at++)
        if (fgetc(file) != logged_byte(r, slot, at))
            die("%s: byte %llu of %llu is wrong", path, (unsigned long long)at,
                (unsigned long long)slot->logged);
    if (fgetc(file) != EOF) die("%s is too long", path);
    fclose(file);
}

void stream_end(struct stream *stream) {
    atomic_store(&stream->stops, true);
    for (size_t ring = 1; ring < RINGS; ring++) {
        struct stream_ring *r = &stream->rings[ring];
        pthread_join(r->thread, NULL);
        stream->front->rings[ring].seen = r->seen;
        for (size_t k = 0; k < stream->slots; k++) check_log(r, &r->slots[k]);
    }
}
