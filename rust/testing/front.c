#define _GNU_SOURCE
#include "front.h"
#include <dirent.h>
#include <errno.h>
#include <fcntl.h>
#include <linux/fuse.h>
#include <poll.h>
#include <stdarg.h>
#include <stdio.h>
#include <stdlib.h>
#include <string.h>
#include <sys/eventfd.h>
#include <sys/mman.h>
#include <sys/socket.h>
#include <sys/un.h>
#include <sys/wait.h>
#include <time.h>
#include <unistd.h>

enum {
    GET_FEATURES = 1,
    SET_FEATURES = 2,
    SET_MEM_TABLE = 5,
    SET_LOG_BASE = 6,
    SET_VRING_NUM = 8,
    SET_VRING_ADDR,
    SET_VRING_BASE,
    GET_VRING_BASE,
    SET_VRING_KICK,
    SET_VRING_CALL,
    SET_VRING_ERR,
    GET_PROTOCOL_FEATURES = 15,
    SET_PROTOCOL_FEATURES = 16,
    SET_VRING_ENABLE = 18
};
enum {
    MEMORY_LEN = 2 * REGION_LEN + QUIET_LEN,
    NEED_REPLY = 8,
    VERSION = 1,
    NO_INTERRUPT = 1,
    NO_NOTIFY = 1
};

struct head {
    uint32_t request, flags, size;
};

struct region {
    uint64_t guest, len, user, offset;
};

void die(const char *format, ...) {
    va_list args;
    va_start(args, format);
    vfprintf(stderr, format, args);
    fputc('\n', stderr);
    va_end(args);
    exit(1);
}

/* ------------------------------------------------------------- places */

uint64_t desc_at(size_t ring) { return 0x10000 * (ring + 1); }
uint64_t avail_at(size_t ring) { return desc_at(ring) + 0x2000; }
uint64_t used_at(size_t ring) { return desc_at(ring) + 0x3000; }
uint64_t request_at(size_t ring) { return 0x100000 * (ring + 1); }
uint64_t room_at(size_t ring) { return HIGH + 0x200000 * ring; }

uint8_t *front_at(const struct front *front, uint64_t guest) {
    if (guest < REGION_LEN) return front->memory + guest;
    if (guest - HIGH < REGION_LEN) return front->memory + REGION_LEN + (guest - HIGH);
    if (guest - QUIET < QUIET_LEN) return front->memory + 2 * REGION_LEN + (guest - QUIET);
    die("no such place: %#llx", (unsigned long long)guest);
}

_Atomic uint16_t *index_at(const struct front *front, uint64_t guest) {
    return (_Atomic uint16_t *)(void *)front_at(front, guest);
}

/* ------------------------------------------------------------- messages */

static void send_message(struct front *front, const struct head *head, const void *body,
                         const int *fds, size_t fd_count) {
    union {
        struct cmsghdr align;
        char bytes[CMSG_SPACE(sizeof(int) * 8)];
    } control = {.bytes = {0}};
    struct iovec parts[2] = {{(void *)(uintptr_t)head, sizeof *head},
                             {(void *)(uintptr_t)body, head->size}};
    struct msghdr message = {.msg_iov = parts, .msg_iovlen = 2};
    if (fd_count > 0) {
        message.msg_control = control.bytes;
        message.msg_controllen = CMSG_SPACE(sizeof(int) * fd_count);
        struct cmsghdr *c = CMSG_FIRSTHDR(&message);
        c->cmsg_level = SOL_SOCKET;
        c->cmsg_type = SCM_RIGHTS;
        c->cmsg_len = CMSG_LEN(sizeof(int) * fd_count);
        memcpy(CMSG_DATA(c), fds, sizeof(int) * fd_count);
    }
    if (sendmsg(front->connection, &message, MSG_NOSIGNAL) < 0)
        die("message %u: %s", head->request, strerror(errno));
}

static void receive_reply(struct front *front, uint32_t request, void *body, uint32_t len) {
    struct head head;
    if (recv(front->connection, &head, sizeof head, MSG_WAITALL) != sizeof head)
        die("message %u has no answer", request);
    /* SET_LOG_BASE may be answered by its own words. */
    uint64_t own[2] = {0};
    bool is_log = request == SET_LOG_BASE && head.size == sizeof own;
    if (head.request != request || (head.size != len && !is_log))
        die("message %u has another answer", request);
    if (recv(front->connection, is_log ? (void *)own : body, head.size, MSG_WAITALL) !=
        (ssize_t)head.size)
        die("message %u: its answer is short", request);
    if (is_log) memset(body, 0, len);
}

uint64_t front_tell(struct front *front, uint32_t request, const void *body, uint32_t len,
                    const int *fds, size_t fd_count) {
    struct head head = {request, VERSION | NEED_REPLY, len};
    uint64_t word;
    send_message(front, &head, body, fds, fd_count);
    receive_reply(front, request, &word, sizeof word);
    return word;
}

void front_say(struct front *front, uint32_t request, const void *body, uint32_t len) {
    struct head head = {request, VERSION, len};
    send_message(front, &head, body, NULL, 0);
}

void front_query(struct front *front, uint32_t request, void *body, uint32_t len) {
    struct head head = {request, VERSION, len};
    send_message(front, &head, body, NULL, 0);
    receive_reply(front, request, body, len);
}

uint64_t front_number(struct front *front, uint32_t request) {
    struct head head = {request, VERSION, 0};
    uint64_t word;
    send_message(front, &head, NULL, NULL, 0);
    receive_reply(front, request, &word, sizeof word);
    return word;
}

static void must_tell(struct front *front, uint32_t request, const void *body, uint32_t len,
                      const int *fds, size_t fd_count) {
    if (front_tell(front, request, body, len, fds, fd_count)) die("message %u is refused", request);
}

void front_set_memory(struct front *front) {
    uint64_t user = (uint64_t)(uintptr_t)front->memory;
    struct {
        uint32_t count, padding;
        struct region regions[REGIONS];
    } table = {REGIONS,
               0,
               {{0, REGION_LEN, user, 0},
                {HIGH, REGION_LEN, user + REGION_LEN, REGION_LEN},
                {QUIET, QUIET_LEN, user + 2 * REGION_LEN, 2 * REGION_LEN}}};
    int fds[REGIONS] = {front->memory_fd, front->memory_fd, front->memory_fd};
    must_tell(front, SET_MEM_TABLE, &table, sizeof table, fds, REGIONS);
}

/* Asks before it tells, as QEMU does: some back-ends answer nothing else before. */
void front_set_up(struct front *front) {
    uint64_t protocol = 1ull << 0 | 1ull << 1 | 1ull << 3 | 1ull << 5 | 1ull << 9 | 1ull << 13 |
                        1ull << 15 | 1ull << 19;
    if ((front_number(front, GET_FEATURES) & front->features) != front->features)
        die("features are wanting");
    protocol &= front_number(front, GET_PROTOCOL_FEATURES);
    must_tell(front, SET_PROTOCOL_FEATURES, &protocol, sizeof protocol, NULL, 0);
    must_tell(front, SET_FEATURES, &front->features, sizeof front->features, NULL, 0);
    front_set_memory(front);
}

void front_start_ring(struct front *front, size_t ring, uint16_t position) {
    struct front_ring *r = &front->rings[ring];
    uint32_t number = (uint32_t)ring;
    uint32_t size[2] = {number, RING_SIZE}, base[2] = {number, position}, enable[2] = {number, 1};
    uint64_t user = (uint64_t)(uintptr_t)front->memory, word = ring;
    uint64_t first = front->has_iommu ? front->shift : user;
    struct {
        uint32_t index, flags;
        uint64_t desc, used, avail, log;
    } address = {number,
                 0,
                 first + desc_at(ring),
                 first + used_at(ring),
                 first + avail_at(ring),
                 used_at(ring)};
    r->told = position;
    must_tell(front, SET_VRING_NUM, size, sizeof size, NULL, 0);
    must_tell(front, SET_VRING_BASE, base, sizeof base, NULL, 0);
    must_tell(front, SET_VRING_ADDR, &address, sizeof address, NULL, 0);
    must_tell(front, SET_VRING_CALL, &word, sizeof word, &r->call, 1);
    must_tell(front, SET_VRING_ERR, &word, sizeof word, &r->err, 1);
    must_tell(front, SET_VRING_KICK, &word, sizeof word, &r->kick, 1);
    must_tell(front, SET_VRING_ENABLE, enable, sizeof enable, NULL, 0);
}

uint16_t front_stop_ring(struct front *front, size_t ring) {
    uint32_t base[2] = {(uint32_t)ring, 0};
    front_query(front, GET_VRING_BASE, base, sizeof base);
    return (uint16_t)base[1];
}

/* ------------------------------------------------------------- the back-end */

void front_connect(struct front *front) {
    enum { OPTIONS = 11, MOST = 48 };
    const char *threads = getenv("THREADS");
    const char *argv[MOST] = {front->server,
                              "--socket-path",
                              front->socket,
                              "--shared-dir",
                              front->dir,
                              "--num-request-queues",
                              "2",
                              "--xattr",
                              "--log-level=warn",
                              "--thread-pool-size",
                              threads ? threads : "0"};
    struct sockaddr_un address = {.sun_family = AF_UNIX};
    for (size_t k = 0; front->options && front->options[k]; k++)
        argv[OPTIONS + k] = front->options[k];
    front->pid = fork();
    if (front->pid == 0) {
        setsid(); /* by its session its children are known */
        execv(front->server, (char *const *)(uintptr_t)argv);
        _exit(127);
    }
    memcpy(address.sun_path, front->socket, strlen(front->socket));
    front->connection = socket(AF_UNIX, SOCK_STREAM | SOCK_CLOEXEC, 0);
    for (int tries = 0; connect(front->connection, (struct sockaddr *)&address, sizeof address);
         tries++) {
        if (tries == 2000) die("the back-end doesn't come up");
        usleep(5000);
    }
}

void front_begin(struct front *front, const char *server, const char *dir,
                 const char *const *options) {
    *front = (struct front){.server = server, .dir = dir, .options = options};
    const char *event_index = getenv("EVENT_INDEX");
    front->has_event_index = event_index && !strcmp(event_index, "1");
    front->features =
        1ull << 32 | 1ull << 30 | 1ull << 28 | (front->has_event_index ? 1ull << 29 : 0);
    const char *folder = getenv("TMPDIR");
    snprintf(front->folder, sizeof front->folder, "%s/front_XXXXXX", folder ? folder : "/tmp");
    if (!mkdtemp(front->folder)) die("no folder for the socket");
    snprintf(front->socket, sizeof front->socket, "%s/socket", front->folder);
    front->memory_fd = memfd_create("guest", MFD_CLOEXEC);
    if (front->memory_fd < 0 || ftruncate(front->memory_fd, MEMORY_LEN)) die("no memory");
    front->memory = mmap(NULL, MEMORY_LEN, PROT_READ | PROT_WRITE, MAP_SHARED, front->memory_fd, 0);
    if (front->memory == MAP_FAILED) die("no memory");
    for (size_t k = 0; k < RINGS; k++) {
        struct front_ring *r = &front->rings[k];
        r->kick = eventfd(0, EFD_NONBLOCK | EFD_CLOEXEC);
        r->call = eventfd(0, EFD_NONBLOCK | EFD_CLOEXEC);
        r->err = eventfd(0, EFD_NONBLOCK | EFD_CLOEXEC);
    }
    front_connect(front);
}

/* Nanoseconds of processor time of a process, by its clock, if it is of a session: 6 of
 * proc_pid_stat(5), behind a name in brackets. */
static double nanoseconds_of(const char *process, pid_t wanted) {
    char path[300], line[1024] = "";
    int session = 0;
    clockid_t clock;
    struct timespec time;
    snprintf(path, sizeof path, "/proc/%s/stat", process);
    FILE *file = fopen(path, "r");
    if (!file) return 0; /* it has ended */
    const char *rest = fgets(line, sizeof line, file) ? strrchr(line, ')') : NULL;
    fclose(file);
    if (!rest || sscanf(rest, ") %*c %*d %*d %d", &session) != 1 || session != wanted) return 0;
    if (clock_getcpuclockid((pid_t)strtol(process, NULL, 10), &clock)) return 0;
    return clock_gettime(clock, &time) ? 0 : (double)time.tv_sec * 1e9 + (double)time.tv_nsec;
}

double front_processor(const struct front *front) {
    double nanoseconds = 0;
    DIR *processes = opendir("/proc");
    if (!processes) die("no /proc");
    for (struct dirent *entry; (entry = readdir(processes));)
        if (entry->d_name[0] >= '1' && entry->d_name[0] <= '9')
            nanoseconds += nanoseconds_of(entry->d_name, front->pid);
    closedir(processes);
    return nanoseconds / 1e6;
}

void front_leave(struct front *front) {
    int status;
    close(front->connection);
    if (waitpid(front->pid, &status, 0) != front->pid || !WIFEXITED(status) ||
        WEXITSTATUS(status) != 0)
        die("the back-end ended with %#x", (unsigned)status);
    unlink(front->socket);
    rmdir(front->folder);
}

/* ------------------------------------------------------------- the driver */

void put_descriptor(const struct front *front, uint64_t table, unsigned k, uint64_t addr,
                    uint32_t len, unsigned flags, unsigned next) {
    struct {
        uint64_t addr;
        uint32_t len;
        uint16_t flags, next;
    } d = {addr + front->shift, len, (uint16_t)flags, (uint16_t)next};
    memcpy(front_at(front, table) + 16 * (size_t)k, &d, sizeof d);
}

void front_offer(struct front *front, size_t ring, uint16_t head) {
    struct front_ring *r = &front->rings[ring];
    atomic_store_explicit(index_at(front, avail_at(ring) + 4 + 2 * (r->offered % RING_SIZE)), head,
                          memory_order_relaxed);
    r->offered++;
    atomic_store_explicit(index_at(front, avail_at(ring) + 2), r->offered, memory_order_release);
}

/* Whether `wanted`, an index that the other side has named, is one of those from `from` on and
 * before `to`. */
static bool is_passed(uint16_t wanted, uint16_t from, uint16_t to) {
    return (uint16_t)(to - wanted - 1) < (uint16_t)(to - from);
}

/* Whether the device wants to be told of the chains that were offered since it was told last. */
static bool wants_kick(struct front *front, size_t ring) {
    struct front_ring *r = &front->rings[ring];
    uint16_t told = r->told;
    r->told = r->offered;
    if (!front->has_event_index)
        return !(atomic_load_explicit(index_at(front, used_at(ring)), memory_order_relaxed) &
                 NO_NOTIFY);
    uint16_t avail_event = atomic_load_explicit(index_at(front, used_at(ring) + 4 + 8 * RING_SIZE),
                                                memory_order_relaxed);
    return is_passed(avail_event, told, r->offered);
}

double front_now(void) {
    struct timespec now;
    clock_gettime(CLOCK_MONOTONIC, &now);
    return (double)now.tv_sec * 1e9 + (double)now.tv_nsec;
}

void front_kick(struct front *front, size_t ring) {
    uint64_t one = 1;
    atomic_thread_fence(memory_order_seq_cst);
    if (!wants_kick(front, ring)) return;
    front->rings[ring].kicks++;
    if (write(front->rings[ring].kick, &one, sizeof one) < 0) die("no kick");
}

static bool is_back(struct front *front, size_t ring) {
    struct front_ring *r = &front->rings[ring];
    r->seen = atomic_load_explicit(index_at(front, used_at(ring) + 2), memory_order_acquire);
    return r->seen == r->offered;
}

/* Wants to be called: at the next chain that comes back, or not. Behind it the driver looks
 * again. */
static void want_call(struct front *front, size_t ring, bool wanted) {
    uint64_t avail = avail_at(ring);
    if (front->has_event_index && wanted)
        atomic_store_explicit(index_at(front, avail + 4 + 2 * RING_SIZE), front->rings[ring].seen,
                              memory_order_relaxed);
    if (!front->has_event_index)
        atomic_store_explicit(index_at(front, avail), wanted ? 0 : NO_INTERRUPT,
                              memory_order_relaxed);
    if (wanted) atomic_thread_fence(memory_order_seq_cst);
}

/* Whether all that was offered comes back while the driver looks for it. */
static bool comes_soon(struct front *front, size_t ring) {
    double end = front_now() + front->looks * 1e3;
    do {
        if (is_back(front, ring)) return true;
    } while (front->looks && front_now() < end);
    return false;
}

bool front_wait(struct front *front, size_t ring, int milliseconds) {
    struct front_ring *r = &front->rings[ring];
    struct pollfd event = {r->call, POLLIN, 0};
    uint64_t word;
    for (;;) {
        want_call(front, ring, false);
        if (comes_soon(front, ring)) return true;
        uint16_t seen = r->seen;
        want_call(front, ring, true);
        if (is_back(front, ring)) return true;
        if (r->seen != seen) continue; /* the device may have named this one before it was wanted */
        /* whether or not all is back: nobody said so */
        if (poll(&event, 1, milliseconds) <= 0) return false;
        if (read(event.fd, &word, sizeof word) > 0)
            r->calls += word;
        else if (errno != EAGAIN)
            die("no call");
    }
}

/* Header and body apart, and a room of 16 bytes and pages, as Linux has them. */
void front_send(struct front *front, size_t ring, uint32_t opcode, uint64_t node, const void *body,
                size_t len, size_t room) {
    struct fuse_in_header head = {.len = (uint32_t)(sizeof head + len),
                                  .opcode = opcode,
                                  .unique = ++front->rings[ring].unique,
                                  .nodeid = node};
    uint64_t table = desc_at(ring), at = request_at(ring), to = room_at(ring);
    unsigned k = 0;
    memcpy(front_at(front, at), &head, sizeof head);
    if (len > 0) memcpy(front_at(front, at) + sizeof head, body, len);
    put_descriptor(front, table, k, at, sizeof head, len || room ? 1 : 0, k + 1);
    if (len > 0)
        k++, put_descriptor(front, table, k, at + sizeof head, (uint32_t)len, room ? 1 : 0, k + 1);
    for (size_t done = 0; done < room;) {
        size_t part = done == 0 ? 16 : 4096, left = room - done;
        part = part < left ? part : left;
        k++, put_descriptor(front, table, k, to, (uint32_t)part, part < left ? 3 : 2, k + 1);
        to += done == 0 ? 0x1000 : 0x2000;
        done += part;
    }
    front_offer(front, ring, 0);
    front_kick(front, ring);
}

void front_read(struct front *front, size_t ring, struct reply *reply) {
    struct fuse_out_header out;
    const uint8_t *element =
        front_at(front, used_at(ring)) + 4 + 8 * ((front->rings[ring].offered - 1u) % RING_SIZE);
    uint64_t from = room_at(ring) + 0x1000;
    uint32_t len;
    memcpy(&len, element + 4, sizeof len);
    *reply = (struct reply){.error = -1};
    if (len < sizeof out) return;
    memcpy(&out, front_at(front, room_at(ring)), sizeof out);
    if (out.unique != front->rings[ring].unique || out.len != len) die("another reply");
    reply->error = -out.error;
    reply->len = len - (uint32_t)sizeof out;
    for (uint32_t done = 0; done < reply->len; done += 4096, from += 0x2000) {
        uint32_t part = reply->len - done < 4096 ? reply->len - done : 4096;
        memcpy(reply->data + done, front_at(front, from), part);
    }
}

void front_ask(struct front *front, size_t ring, uint32_t opcode, uint64_t node, const void *body,
               size_t len, struct reply *reply) {
    front_send(front, ring, opcode, node, body, len, 16 + sizeof reply->data);
    if (!front_wait(front, ring, 20000)) die("opcode %u isn't answered", opcode);
    front_read(front, ring, reply);
}

void begin_session(struct front *front) {
    static struct reply reply;
    struct fuse_init_in in = {.major = 7, .minor = 38, .max_readahead = 1 << 17, .flags = ~0u};
    front_ask(front, 1, FUSE_INIT, 0, &in, sizeof in, &reply);
    if (reply.error) die("INIT: %s", strerror(reply.error));
}

uint64_t look_up(struct front *front, uint64_t parent, const char *name) {
    static struct reply reply;
    struct fuse_entry_out entry;
    front_ask(front, 1, FUSE_LOOKUP, parent, name, strlen(name) + 1, &reply);
    if (reply.error) die("LOOKUP %s: %s", name, strerror(reply.error));
    memcpy(&entry, reply.data, sizeof entry);
    return entry.nodeid;
}

uint64_t open_node(struct front *front, uint64_t node, uint32_t flags) {
    static struct reply reply;
    struct fuse_open_in in = {.flags = flags};
    struct fuse_open_out out;
    front_ask(front, 1, FUSE_OPEN, node, &in, sizeof in, &reply);
    if (reply.error) die("OPEN: %s", strerror(reply.error));
    memcpy(&out, reply.data, sizeof out);
    return out.fh;
}

void wait_for_opening(int lease) {
    for (int tries = 0; fcntl(lease, F_GETLEASE) == F_WRLCK; tries++) {
        if (tries == 20000) die("the file isn't opened");
        usleep(1000);
    }
}
