/* While one request takes long, each message of the front-end and each other request is answered at
 * once. With THREADS of the environment other threads of the same ring go on too; without, other
 * rings do. */
#define _GNU_SOURCE
#include "held.h"
#include "checks.h"
#include <fcntl.h>
#include <linux/fuse.h>
#include <poll.h>
#include <stdio.h>
#include <stdlib.h>
#include <string.h>
#include <sys/eventfd.h>
#include <sys/mman.h>
#include <time.h>
#include <unistd.h>

enum {
    SET_FEATURES = 2,
    SET_MEM_TABLE = 5,
    SET_LOG_BASE = 6,
    SET_VRING_ADDR = 9,
    SET_VRING_KICK = 12,
    SET_VRING_CALL = 13,
    SET_VRING_ERR = 14,
    SET_VRING_ENABLE = 18,
    ADD_MEM_REG = 37,
    REM_MEM_REG = 38
};
enum {
    LOG_LEN = 1 << 18,
    AT_ONCE = 100,
    ELSEWHERE = 0x800
};

static bool has_threads;
int lease = -1;
static unsigned longest;     /* milliseconds of one of them beside the request that takes long */
static unsigned asked, late; /* how many requests and messages there were, and how many were late */

uint64_t now(void) {
    struct timespec t;
    clock_gettime(CLOCK_MONOTONIC, &t);
    return (uint64_t)t.tv_sec * 1000 + (uint64_t)t.tv_nsec / 1000000;
}

/* A machine that is busy with other programs may be late with one of a hundred, never for long. */
void must_be_soon(const char *what, uint64_t before) {
    unsigned took = (unsigned)(now() - before);
    longest = took > longest ? took : longest;
    asked++;
    late += took >= AT_ONCE;
    if (took >= 2000 || late > 3 + asked / 100)
        die("%s takes %u ms beside a request that takes long", what, took);
}

uint16_t returned(size_t ring) { return atomic_load(index_at(&front, used_at(ring) + 2)); }

/* ------------------------------------------------------------- other requests */

/* Whether so many chains of a ring are returned in time. */
bool is_returned(size_t ring, uint16_t count) {
    for (uint64_t end = now() + 20000; now() < end; usleep(50))
        if (returned(ring) == count) return true;
    return false;
}

void ask_beside(size_t ring) {
    struct fuse_getattr_in in = {0};
    uint16_t count = (uint16_t)(returned(ring) + 1);
    uint64_t before = now();
    send_apart(ring, QUICK_SLOT, FUSE_GETATTR, ROOT, &in, sizeof in, 16 + 104);
    if (!is_returned(ring, count))
        die("GETATTR of ring %zu waits for a request that takes long", ring);
    must_be_soon(ring == 1 ? "GETATTR of the same ring" : "GETATTR of another ring", before);
}

static void ask_all_beside(void) {
    ask_beside(2);
    if (has_threads) ask_beside(1);
}

/* ------------------------------------------------------------- messages */

static void tell_at_once(const char *what, uint32_t message, const void *body, uint32_t len,
                         const int *fds, size_t fd_count) {
    uint64_t before = now();
    check(what, front_tell(&front, message, body, len, fds, fd_count) == 0);
    must_be_soon(what, before);
    ask_all_beside();
}

static void tell_addresses(const char *what, uint64_t elsewhere) {
    uint64_t user = (uint64_t)(uintptr_t)front.memory;
    struct {
        uint32_t index, flags;
        uint64_t desc, used, avail, log;
    } address = {1,
                 1,
                 user + desc_at(1),
                 user + used_at(1) + elsewhere,
                 user + avail_at(1),
                 used_at(1) + elsewhere};
    tell_at_once(what, SET_VRING_ADDR, &address, sizeof address, NULL, 0);
}

void tell_memory(const uint64_t *regions, uint32_t count) {
    struct {
        uint32_t count, padding;
        uint64_t regions[REGIONS][4];
    } table = {.count = count};
    int fds[REGIONS] = {front.memory_fd, front.memory_fd, front.memory_fd};
    for (uint32_t k = 0; k < count; k++)
        memcpy(table.regions[k], regions + 4 * k, sizeof table.regions[k]);
    check("SET_MEM_TABLE",
          front_tell(&front, SET_MEM_TABLE, &table, 8 + 32 * count, fds, count) == 0);
}

static void change_memory(void) {
    uint64_t region[5] = {0, 1ull << 36, 1 << 20, 1ull << 46, 0}, before = now();
    int fd = memfd_create("more", MFD_CLOEXEC);
    if (fd < 0 || ftruncate(fd, 1 << 20)) die("no memory");
    front_set_memory(&front);
    must_be_soon("SET_MEM_TABLE", before);
    tell_at_once("ADD_MEM_REG", ADD_MEM_REG, region, sizeof region, &fd, 1);
    tell_at_once("REM_MEM_REG", REM_MEM_REG, region, sizeof region, NULL, 0);
    close(fd);
}

/* Every message that may come while a ring runs. */
static void tell_all(int call, int log) {
    uint64_t one = 1, told[2] = {LOG_LEN, 0}, logged = front.features | 1ull << 26;
    uint32_t enable[2] = {1, 1};
    change_memory();
    tell_at_once("SET_LOG_BASE", SET_LOG_BASE, told, sizeof told, &log, 1);
    tell_at_once("SET_FEATURES with a log", SET_FEATURES, &logged, sizeof logged, NULL, 0);
    tell_addresses("SET_VRING_ADDR", 0);
    tell_at_once("SET_VRING_CALL", SET_VRING_CALL, &one, sizeof one, &call, 1);
    tell_at_once("SET_VRING_ERR", SET_VRING_ERR, &one, sizeof one, &front.rings[1].err, 1);
    tell_at_once("SET_VRING_KICK", SET_VRING_KICK, &one, sizeof one, &front.rings[1].kick, 1);
    tell_at_once("SET_VRING_ENABLE", SET_VRING_ENABLE, enable, sizeof enable, NULL, 0);
}

/* ------------------------------------------------------------- the request that takes long */

void hold(const char *dir, uint64_t node) {
    struct fuse_open_in in = {.flags = O_RDONLY};
    uint16_t before = returned(1);
    lease = lease_slow(dir);
    send_apart(1, SLOW_SLOT, FUSE_OPEN, node, &in, sizeof in, 16 + 16);
    wait_for_opening(lease);
    if (returned(1) != before) die("the request takes no time");
}

bool is_slow_one(uint64_t used) {
    const uint8_t *element = front_at(&front, used) + 4 + 8 * ((returned(1) - 1u) % RING_SIZE);
    return element[0] == 4 * SLOW_SLOT;
}

/* Closes the file that the slow one opened: nobody has a lease on a file that is open. */
void close_slow(uint64_t node) {
    struct fuse_open_out out;
    struct fuse_release_in in = {.flags = O_RDONLY};
    uint16_t count = (uint16_t)(returned(1) + 1);
    memcpy(&out, front_at(&front, room_at(1) + 0x1000 * SLOW_SLOT) + sizeof(struct fuse_out_header),
           sizeof out);
    in.fh = out.fh;
    send_apart(1, QUICK_SLOT, FUSE_RELEASE, node, &in, sizeof in, 16);
    check("RELEASE", is_returned(1, count));
}

/* The driver wants an interrupt for the next chain that is returned. */
static void want_interrupt(void) {
    atomic_store(index_at(&front, avail_at(1)), 0);
    atomic_store(index_at(&front, avail_at(1) + 4 + 2 * RING_SIZE), returned(1));
}

/* Each message, again and again; then the chain is returned over the memory that it was taken from,
 * to the driver where it is interrupted now, and marked in the log that is read now. */
static void messages(const char *dir, uint64_t node, unsigned seconds) {
    int call = eventfd(0, EFD_NONBLOCK | EFD_CLOEXEC), log_fd = memfd_create("log", MFD_CLOEXEC);
    uint64_t word, page = room_at(1) + 0x1000 * SLOW_SLOT;
    unsigned rounds = 0;
    if (log_fd < 0 || ftruncate(log_fd, LOG_LEN)) die("no log");
    uint8_t *log = mmap(NULL, LOG_LEN, PROT_READ | PROT_WRITE, MAP_SHARED, log_fd, 0);
    hold(dir, node);
    uint64_t end = now() + 1000 * seconds;
    do tell_all(call, log_fd);
    while (rounds++, now() < end);
    uint16_t before = returned(1);
    while (read(call, &word, sizeof word) > 0) {
    }
    while (read(front.rings[1].call, &word, sizeof word) > 0) {
    }
    memset(log, 0, LOG_LEN);
    want_interrupt();
    close(lease);
    check("the slow one is returned",
          is_returned(1, (uint16_t)(before + 1)) && is_slow_one(used_at(1)));
    /* marks and interrupt come behind the used index */
    check("the driver is interrupted where it is to be now",
          poll(&(struct pollfd){call, POLLIN, 0}, 1, 20000) == 1);
    check("and not where it was to be", read(front.rings[1].call, &word, sizeof word) < 0);
    check("the slow one's page is marked", log[page / 4096 / 8] >> page / 4096 % 8 & 1);
    check("the used ring's page is marked",
          log[used_at(1) / 4096 / 8] >> used_at(1) / 4096 % 8 & 1);
    front_tell(&front, SET_FEATURES, &front.features, sizeof front.features, NULL, 0);
    close_slow(node);
    printf("held for %u s: %u rounds of messages; the longest request beside it took %u ms\n",
           seconds, rounds, longest);
}

static void kick(size_t ring) {
    uint64_t one = 1;
    if (write(front.rings[ring].kick, &one, sizeof one) < 0) die("no kick");
}

/* A ring whose parts lie elsewhere from now on: the chain in flight is returned where it was taken,
 * the next one elsewhere. */
static void moved(const char *dir, uint64_t node) {
    bool had_threads = has_threads;
    struct fuse_getattr_in in = {0};
    hold(dir, node);
    uint16_t before = returned(1);
    has_threads = false; /* with other numbers the next chain waits for the one in flight */
    tell_addresses("SET_VRING_ADDR elsewhere", ELSEWHERE);
    close(lease);
    check("it is returned where it was taken",
          is_returned(1, (uint16_t)(before + 1)) && is_slow_one(used_at(1)));
    send_apart(1, QUICK_SLOT, FUSE_GETATTR, ROOT, &in, sizeof in, 16 + 104);
    kick(1); /* what is said there of kicks means nothing any more */
    for (uint64_t end = now() + 20000;
         now() < end &&
         atomic_load(index_at(&front, used_at(1) + ELSEWHERE + 2)) != (uint16_t)(before + 2);)
        usleep(100);
    check("the next one is returned elsewhere",
          atomic_load(index_at(&front, used_at(1) + ELSEWHERE + 2)) == (uint16_t)(before + 2));
    check("and not there", returned(1) == (uint16_t)(before + 1));
    atomic_store(index_at(&front, used_at(1) + 2), (uint16_t)(before + 2));
    tell_addresses("SET_VRING_ADDR back", 0);
    usleep(100000); /* what is said of kicks is true again */
    has_threads = had_threads;
    close_slow(node);
}

void held(const char *dir, unsigned seconds) {
    const char *threads = getenv("THREADS");
    has_threads = threads && atoi(threads) > 1;
    uint64_t node = look_up(&front, ROOT, "slow");
    front_start_ring(&front, 2, 0);
    messages(dir, node, seconds);
    moved(dir, node);
    stopped(dir, node, has_threads);
}
