#define _GNU_SOURCE
#include "chance.h"
#include "iommu.h"
#include <linux/fuse.h>
#include <stdio.h>
#include <string.h>
#include <sys/socket.h>
#include <time.h>
#include <unistd.h>

enum { SET_VRING_ENABLE = 18, SET_BACKEND_REQ_FD = 21, NEED_REPLY = 8, REPLY = 4 };

struct front front;
int failed;
int channel[2] = {-1, -1};
pthread_mutex_t line = PTHREAD_MUTEX_INITIALIZER;
_Atomic int manner;
_Atomic unsigned misses, updates, last_misses;
_Atomic uint64_t moved;

void check(const char *what, bool holds) {
    if (holds) return;
    fprintf(stderr, "FAILED: %s\n", what);
    failed = 1;
}

uint64_t now(void) {
    struct timespec t;
    clock_gettime(CLOCK_MONOTONIC, &t);
    return (uint64_t)t.tv_sec * 1000 + (uint64_t)t.tv_nsec / 1000000;
}

/* ------------------------------------------------------------- messages */

static uint64_t say(uint8_t kind, uint64_t iova, uint64_t size, uint64_t user, uint8_t access) {
    struct iotlb body = {iova, size, user, access, kind, {0}};
    return front_tell(&front, IOTLB_MSG, &body, sizeof body, NULL, 0);
}

/* The same from a thread that isn't the front-end's yet. */
uint64_t tell(uint8_t kind, uint64_t iova, uint64_t size, uint64_t user, uint8_t access) {
    pthread_mutex_lock(&line);
    uint64_t answer = say(kind, iova, size, user, access);
    pthread_mutex_unlock(&line);
    return answer;
}

/* All that is mapped, in two: the second ends at 2^64. */
static void unmap_all(void) {
    check("INVALIDATE", say(INVALIDATE, 0, 1ull << 63, 0, 0) == 0);
    check("INVALIDATE up to 2^64", say(INVALIDATE, 1ull << 63, 1ull << 63, 0, 0) == 0);
}

void flush(void) {
    pthread_mutex_lock(&line);
    unmap_all();
    pthread_mutex_unlock(&line);
}

uint64_t user_at(uint64_t guest) { return (uint64_t)(uintptr_t)front_at(&front, guest); }

static bool is_guest(uint64_t guest) {
    return guest < REGION_LEN || guest - HIGH < REGION_LEN || guest - QUIET < QUIET_LEN;
}

static bool is_shown(uint64_t guest) { return guest - SHOWN < SHOWN_LEN; }

static bool is_request(uint64_t guest) {
    return guest >= request_at(0) && guest < request_at(RINGS);
}

static uint64_t map_page(uint64_t iova) {
    uint64_t guest = iova - SHIFT;
    if (is_request(guest)) guest += moved;
    updates++;
    return say(UPDATE, iova, PAGE, user_at(guest), is_shown(guest) ? READ : BOTH);
}

static uint64_t map_large(uint64_t iova) {
    uint64_t len = 2 << 20, from = iova & ~(len - 1);
    uint64_t last = from - SHIFT + len - 1;
    if (is_request(iova - SHIFT) || !is_guest(last) || is_shown(last)) return map_page(iova);
    updates++;
    return say(UPDATE, from, len, user_at(from - SHIFT), BOTH);
}

static uint64_t answer_miss(uint64_t iova, int how) {
    if (how == EMPTY) return 0;
    if (how == REFUSING || !is_guest(iova - SHIFT)) return 1;
    for (size_t k = 0; how == HIDING && k < RINGS; k++)
        if (iova - SHIFT == used_at(k)) return 1;
    switch (how) {
    case LARGE: return map_large(iova);
    case FLUSHING:
        map_page(iova);
        unmap_all();
        return 0;
    default: return map_page(iova);
    }
}

/* A reply that is none of the channel's. */
void send_rubbish(int fd) {
    uint32_t words[5];
    for (int k = 0; k < 5; k++) words[k] = (uint32_t)ONE_OF(0, 1, 4, 5, 8, chance());
    send(fd, words, 1 + below(sizeof words), MSG_NOSIGNAL | MSG_DONTWAIT);
}

static void *serve_channel(void *none) {
    int fd = channel[0];
    chance_begin(now() << 8 | 1);
    struct {
        uint32_t request, flags, size;
    } head;
    struct iotlb body;
    while (recv(fd, &head, sizeof head, MSG_WAITALL) == sizeof head) {
        if (head.request != 1 || head.size != sizeof body ||
            recv(fd, &body, sizeof body, MSG_WAITALL) != sizeof body || body.kind != MISS)
            die("the back-end asks for something else");
        check("a miss of a page", body.iova % PAGE == 0 && body.access != NONE);
        check("a miss is to be acknowledged", head.flags & NEED_REPLY);
        int how = manner;
        last_misses += body.iova >= LAST_PAGE;
        misses++;
        if (how == ANYHOW)
            how = (int)ONE_OF(HONEST, HONEST, REFUSING, SILENT, EMPTY, FLUSHING, LARGE);
        if (how == SILENT) continue;
        while (manner == HELD) usleep(500);
        if (how == HELD) how = REFUSING;
        if (manner == ANYHOW && below(500) == 0) send_rubbish(fd);
        pthread_mutex_lock(&line);
        uint64_t number = answer_miss(body.iova, how);
        pthread_mutex_unlock(&line);
        head.flags = 1 | REPLY;
        head.size = sizeof number;
        struct iovec parts[2] = {{&head, sizeof head}, {&number, sizeof number}};
        struct msghdr message = {.msg_iov = parts, .msg_iovlen = 2};
        if (sendmsg(fd, &message, MSG_NOSIGNAL) < 0) break;
    }
    close(fd);
    return none;
}

static pthread_t server;

void open_channel(void) {
    if (socketpair(AF_UNIX, SOCK_STREAM | SOCK_CLOEXEC, 0, channel)) die("no channel");
    pthread_mutex_lock(&line);
    check("SET_BACKEND_REQ_FD",
          front_tell(&front, SET_BACKEND_REQ_FD, NULL, 0, &channel[1], 1) == 0);
    pthread_mutex_unlock(&line);
    close(channel[1]);
    pthread_create(&server, NULL, serve_channel, NULL);
}

void close_channel(void) {
    shutdown(channel[0], SHUT_RDWR);
    pthread_join(server, NULL);
}

void start_ring(size_t ring, uint16_t position) {
    pthread_mutex_lock(&line);
    front_start_ring(&front, ring, position);
    pthread_mutex_unlock(&line);
}

uint16_t stop_ring(size_t ring) {
    pthread_mutex_lock(&line);
    uint16_t position = front_stop_ring(&front, ring);
    pthread_mutex_unlock(&line);
    return position;
}

void enable_ring(uint32_t ring, uint32_t enabled) {
    uint32_t enable[2] = {ring, enabled};
    pthread_mutex_lock(&line);
    check("SET_VRING_ENABLE",
          front_tell(&front, SET_VRING_ENABLE, enable, sizeof enable, NULL, 0) == 0);
    pthread_mutex_unlock(&line);
}

/* The ring begins again, with no chain in it. */
void begin_again(size_t ring) {
    stop_ring(ring);
    memset(front_at(&front, desc_at(ring)), 0, 0x4000);
    front.rings[ring].offered = front.rings[ring].seen = 0;
    start_ring(ring, 0);
}

void ask_root(const char *what) {
    static struct reply reply;
    struct fuse_getattr_in in = {0};
    front_ask(&front, 1, FUSE_GETATTR, FUSE_ROOT_ID, &in, sizeof in, &reply);
    check(what, reply.error == 0);
}
