/* Front-ends that lie, and guests with addresses that no mapping has. */
#define _GNU_SOURCE
#include "chance.h"
#include "iommu.h"
#include <errno.h>
#include <fcntl.h>
#include <linux/fuse.h>
#include <poll.h>
#include <signal.h>
#include <stdio.h>
#include <stdlib.h>
#include <string.h>
#include <time.h>
#include <unistd.h>

enum { ROOT = 1, INDIRECT = 4 };

static struct reply reply;
static _Atomic bool over;

/* ------------------------------------------------------------- the last page of all */

/* A chain of a header and a reply buffer, or of a table, at an I/O address. */
static void offer_at(uint64_t iova, uint32_t len, unsigned flags) {
    struct fuse_in_header head = {
        .len = sizeof head, .opcode = FUSE_GETATTR, .unique = 1, .nodeid = ROOT};
    uint64_t table = desc_at(1), at = request_at(1);
    memcpy(front_at(&front, at), &head, sizeof head);
    put_descriptor(&front, table, 0, at, sizeof head, 1, 1);
    put_descriptor(&front, table, 1, iova - SHIFT, len, flags, 0);
    front_offer(&front, 1, flags == INDIRECT);
    front_kick(&front, 1);
}

/* The chain has a fault, or the ring is refused: by no answer more than one. */
static void must_be_a_fault(const char *what) {
    uint64_t word, end = now() + 20000;
    unsigned before = misses;
    bool is_refused = false, is_back = false;
    while (!is_refused && !is_back && now() < end) {
        is_back = front_wait(&front, 1, 100);
        is_refused = read(front.rings[1].err, &word, sizeof word) > 0;
    }
    if (!is_refused && !is_back) die("%s: it is neither returned nor refused", what);
    if (is_back) {
        front_read(&front, 1, &reply);
        check(what, reply.error == -1);
    }
    check("few misses before the fault", misses - before < 16);
    usleep(100000); /* those that came are counted */
    before = misses;
    usleep(300000);
    check("nothing is asked for after a fault", misses == before);
    manner = HONEST;
    begin_again(1);
    ask_root("GETATTR after the last page");
}

/* Addresses of the last page of all, which no mapping has, are a fault whatever is answered. */
void last(void) {
    static const struct {
        uint64_t at;
        uint32_t len;
        unsigned flags;
    } buffers[] = {
        {LAST_PAGE, PAGE, 2},     {LAST_PAGE, 200, 2},       {-1ull, 1, 2},
        {LAST_PAGE, PAGE, 0},     {LAST_PAGE, 2 * PAGE, 2},  {-3ull * PAGE, 3 * PAGE, 2},
        {-3ull * PAGE, 3 * PAGE, 0}, {LAST_PAGE, 64, INDIRECT}, {-1ull, UINT32_MAX, 2},
    };
    static const int manners[] = {HONEST, EMPTY, REFUSING, FLUSHING};
    char what[64];
    for (size_t k = 0; k < 4 * sizeof buffers / sizeof *buffers; k++) {
        size_t buffer = k / 4;
        ask_root("GETATTR before the last page"); /* the ring's pages are known */
        manner = manners[k % 4];
        snprintf(what, sizeof what, "buffer %zu, manner %d", buffer, manners[k % 4]);
        offer_at(buffers[buffer].at, buffers[buffer].len, buffers[buffer].flags);
        must_be_a_fault(what);
    }
    for (int k = 0; k < 3; k++) { /* the ring's own parts */
        struct {
            uint32_t index, flags;
            uint64_t desc, used, avail, log;
        } address = {1, 0, SHIFT + desc_at(1), SHIFT + used_at(1), SHIFT + avail_at(1), 0};
        *(k == 0 ? &address.desc : k == 1 ? &address.used : &address.avail) = LAST_PAGE;
        manner = EMPTY;
        pthread_mutex_lock(&line);
        uint64_t answer = front_tell(&front, SET_VRING_ADDR, &address, sizeof address, NULL, 0);
        pthread_mutex_unlock(&line);
        offer_at(SHIFT + room_at(1), PAGE, 2);
        if (!answer) must_be_a_fault("a part of a ring");
    }
    check("the last page isn't asked for", last_misses == 0);
    printf("iommu: the last page is a fault, %u misses, %u of it\n", misses, last_misses);
}

/* A large buffer of which no page is mapped is a fault, and a ring whose used ring is refused waits
 * for its reset. */
void large(void) {
    struct pollfd refused = {front.rings[1].err, POLLIN, 0};
    static const uint32_t lens[] = {1025 * PAGE, 64 << 20, 1u << 31, UINT32_MAX};
    unsigned before = misses;
    for (size_t k = 0; k < sizeof lens / sizeof *lens; k++) {
        ask_root("GETATTR before a large buffer");
        offer_at(SHIFT + (1ull << 40), lens[k], 2);
        if (!front_wait(&front, 1, 60000)) die("a buffer of %u bytes isn't returned", lens[k]);
        front_read(&front, 1, &reply);
        check("a buffer that isn't mapped", reply.error == -1);
    }
    check("few pages of a buffer are asked for", misses - before < 8192);
    ask_root("GETATTR after large buffers");
    stop_ring(1);
    front.rings[1].offered = front.rings[1].seen = 0;
    memset(front_at(&front, desc_at(1)), 0, 0x4000);
    flush();
    manner = HIDING;
    start_ring(1, 0);
    check("a used ring that is refused is reported", poll(&refused, 1, 20000) == 1);
    usleep(100000); /* those that came are counted */
    before = misses;
    usleep(500000);
    check("it isn't asked for again", misses == before);
    manner = HONEST;
    begin_again(1);
    ask_root("GETATTR after a used ring was refused");
    printf("iommu: large buffers that aren't mapped, %u misses\n", misses);
}

/* The device stops for a while, and the front-end refuses the misses that it reads then, as QEMU
 * does. The chain is served when the device goes on. */
void restarts(unsigned count) {
    struct fuse_getattr_in in = {0};
    for (unsigned k = 0; k < count; k++) {
        flush();
        unsigned before = misses;
        manner = HELD;
        front_send(&front, 1, FUSE_GETATTR, ROOT, &in, sizeof in, 16 + 104);
        for (uint64_t end = now() + 20000; misses == before; usleep(200))
            if (now() > end) die("nothing is missed");
        uint16_t position = stop_ring(1);
        if (k % 3 == 0) manner = HONEST; /* refused while it is stopped */
        if (k % 2) usleep(2000);
        pthread_mutex_lock(&line);
        uint64_t features = front.features;
        check("SET_FEATURES", front_tell(&front, SET_FEATURES, &features, sizeof features, NULL,
                                         0) == 0);
        pthread_mutex_unlock(&line);
        if (k % 3 == 1) manner = HONEST;
        start_ring(1, position);
        manner = HONEST;
        if (!front_wait(&front, 1, 20000)) die("a chain that waited isn't returned");
        front_read(&front, 1, &reply);
        check("a refusal while the device is stopped is none", reply.error == 0);
    }
    printf("iommu: %u times the device stops and goes on\n", count);
}

/* ------------------------------------------------------------- stores */

static uint8_t *before;

static void remember(void) {
    size_t len = (size_t)(2 * REGION_LEN + QUIET_LEN);
    if (!before) before = malloc(len);
    if (!before) die("no memory");
    memcpy(before, front.memory, len);
}

static bool is_as_before(uint64_t guest, size_t len) {
    const uint8_t *at = front_at(&front, guest);
    return !memcmp(at, before + (at - front.memory), len);
}

/* All pages that differ are the ring's and the reply's own. */
static void must_be_as_before(void) {
    for (uint64_t k = 0; k < (2 * REGION_LEN + QUIET_LEN) / PAGE; k++) {
        uint64_t at = k * PAGE;
        uint64_t guest = at < REGION_LEN       ? at
                         : at < 2 * REGION_LEN ? HIGH + (at - REGION_LEN)
                                               : QUIET + (at - 2 * REGION_LEN);
        bool may_differ = guest == used_at(1) || guest == avail_at(1) || guest == room_at(1) ||
                          guest == room_at(1) + 0x1000;
        check("only pages that were mapped are stored to", may_differ || is_as_before(guest, PAGE));
    }
}

/* While a chain is in flight its I/O pages are mapped to other pages: no byte comes there. */
void stores(const char *dir, unsigned count) {
    struct fuse_open_in in = {.flags = O_RDONLY};
    struct fuse_open_out out;
    char path[4096];
    uint64_t node = look_up(&front, ROOT, "slow"), other = 0x700000;
    snprintf(path, sizeof path, "%s/slow", dir);
    signal(SIGIO, SIG_IGN);
    memset(front_at(&front, other), 0xa5, 0x10000);
    for (unsigned k = 0; k < count; k++) {
        int fd = open(path, O_RDWR);
        if (fd < 0 || fcntl(fd, F_SETLEASE, F_WRLCK)) die("no lease: %s", strerror(errno));
        manner = k % 2 ? HONEST : LARGE;
        flush();
        front_send(&front, 1, FUSE_OPEN, node, &in, sizeof in, 16 + sizeof out);
        wait_for_opening(fd);
        manner = EMPTY;
        if (k % 3) flush();
        uint64_t pages[] = {request_at(1), room_at(1), room_at(1) + 0x1000, desc_at(1),
                            avail_at(1), used_at(1)};
        for (size_t p = 0; p < sizeof pages / sizeof *pages; p++)
            check("an update of a page in use", tell(UPDATE, SHIFT + pages[p], PAGE,
                  user_at(other + PAGE * p), k % 4 == 3 ? READ : BOTH) == 0);
        remember();
        close(fd);
        if (!front_wait(&front, 1, 20000)) die("a chain isn't returned");
        must_be_as_before();
        front_read(&front, 1, &reply);
        check("its reply is whole", reply.error == 0 && reply.len == sizeof out);
        memcpy(&out, reply.data, sizeof out);
        manner = HONEST;
        flush();
        struct fuse_release_in release = {.fh = out.fh};
        front_ask(&front, 1, FUSE_RELEASE, node, &release, sizeof release, &reply);
        check("RELEASE", reply.error == 0);
    }
    printf("iommu: %u chains in flight are remapped\n", count);
}

static void *meddle(void *none) {
    chance_begin(now() << 8 | 3);
    while (!over) {
        uint64_t guest = ONE_OF(desc_at(1), avail_at(1), used_at(1), request_at(1), room_at(1),
                                below(REGION_LEN), HIGH + below(REGION_LEN));
        guest &= ~(uint64_t)(PAGE - 1);
        uint64_t shown = SHOWN + (below(SHOWN_LEN) & -PAGE);
        if (guest >= SHOWN) continue;
        switch (below(7)) {
        case 0: flush(); break;
        case 1: tell(UPDATE, SHIFT + guest, PAGE, user_at(guest), (uint8_t)(1 + below(3))); break;
        case 2: tell(INVALIDATE, SHIFT + guest, PAGE << below(12), 0, 0); break;
        case 3: tell((uint8_t)below(6), chance(), chance(), chance(), (uint8_t)below(5)); break;
        case 4: tell(UPDATE, SHIFT + guest, PAGE, user_at(below(REGION_LEN) & -PAGE), BOTH); break;
        case 5: tell(UPDATE, SHIFT + guest, PAGE, user_at(shown), READ); break;
        default: usleep((useconds_t)below(2000)); break;
        }
    }
    return none;
}

/* Whatever the front-end does, the daemon neither hangs nor ends, and serves a driver that begins
 * again. */
void anyhow(unsigned seconds) {
    struct fuse_getattr_in in = {0};
    pthread_t meddler;
    unsigned sent = 0, back = 0;
    chance_begin((uint64_t)time(NULL) * 0x9e3779b97f4a7c15u | 1);
    memset(front_at(&front, QUIET), 0xa5, QUIET_LEN);
    memset(front_at(&front, SHOWN), 0x5a, SHOWN_LEN);
    remember();
    manner = ANYHOW;
    pthread_create(&meddler, NULL, meddle, NULL);
    for (uint64_t end = now() + 1000ull * seconds; now() < end; sent++) {
        front_send(&front, 1, FUSE_GETATTR, ROOT, &in, sizeof in, 16 + 104);
        back += front_wait(&front, 1, (int)below(300));
        uint64_t before = now();
        if (below(4) == 0) {
            enable_ring(1, 0);
            enable_ring(1, 1);
        } else if (below(4) == 0) {
            close_channel();
            open_channel();
        } else if (below(2)) {
            begin_again(1); /* another page may have been taken for the ring's own */
        }
        if (now() - before > 4000)
            die("a message waits for %llu ms", (unsigned long long)(now() - before));
    }
    over = true;
    pthread_join(meddler, NULL);
    manner = HONEST;
    close_channel();
    open_channel();
    flush();
    begin_again(1);
    ask_root("GETATTR after all that");
    check("no store to memory that isn't mapped", is_as_before(QUIET, QUIET_LEN));
    check("no store to memory that may be read alone", is_as_before(SHOWN, SHOWN_LEN));
    printf("iommu: %u requests over any front-end, %u returned at once, %u misses\n", sent, back,
           misses);
}
