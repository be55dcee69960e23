/* live.c where a guest chooses places with care: the available ring crosses two regions, whose host
 * memory lies apart, and reply buffers are too short for an answer that fails. And starts that
 * fail: they leave no thread, and the next start is as good as the first. */
#define _GNU_SOURCE
#include "../live.h"
#include <errno.h>
#include <poll.h>
#include <stdatomic.h>
#include <stdio.h>
#include <stdlib.h>
#include <string.h>
#include <sys/eventfd.h>
#include <sys/mman.h>
#include <unistd.h>

enum { SIZE = 8, DESC = 0x1000, AVAIL = 0x2ffe, USED = 0x4000, REQUEST = 0x5000, REPLY = 0x6000 };
enum { SEAM = 0x3000, PAGE = 0x1000, MEMORY = 0x8000, THREADS = 2, CHAINS = 2000 };
enum { GETATTR = 3 }; /* of linux/fuse.h */

/* The guest's memory: its first pages, and those from the seam on. What lies behind either can't be
 * accessed. */
static uint8_t *low, *high;
static _Atomic uint64_t options;
static struct live live;

static void expect(const char *what, uint64_t found, uint64_t wanted) {
    if (found == wanted) return;
    fprintf(stderr, "FAILED: %s: %llu, and not %llu\n", what, (unsigned long long)found,
            (unsigned long long)wanted);
    exit(1);
}

static uint8_t *pages(size_t len) {
    uint8_t *at = mmap(NULL, len + PAGE, PROT_NONE, MAP_PRIVATE | MAP_ANONYMOUS, -1, 0);
    if (at == MAP_FAILED || mprotect(at, len, PROT_READ | PROT_WRITE)) exit(1);
    return at;
}

static void *place_of(uint64_t guest) { return guest < SEAM ? low + guest : high + guest - SEAM; }

static _Atomic uint16_t *number(uint64_t guest) { return (_Atomic uint16_t *)place_of(guest); }

static void put(uint64_t at, uint64_t value, size_t len) { memcpy(place_of(at), &value, len); }

/* GETATTR is answered; what the guest numbers 0 fails. */
static uint32_t answer(void *files, struct pk_chain *chain, struct pk_device *device,
                       const struct pk_call *call, const uint8_t *request) {
    struct pk_attr attr = {.ino = 1, .mode = 040755, .nlink = 2};
    (void)files, (void)device, (void)request;
    return call->unique ? pk_reply_attr(chain, call->ticket, &attr, 1, 0) : PK_OTHER_KIND;
}

/* The driver makes chains available, each with a reply buffer of so many bytes. */
static void offer(unsigned count, uint64_t unique, uint32_t room) {
    uint16_t index = atomic_load(number(AVAIL + 2));
    uint64_t one = 1;
    put(DESC, REQUEST, 8), put(DESC + 8, 56, 4), put(DESC + 12, 1, 2), put(DESC + 14, 1, 2);
    put(DESC + 16, REPLY, 8), put(DESC + 24, room, 4), put(DESC + 28, 2, 2);
    put(REQUEST, 56, 4), put(REQUEST + 4, GETATTR, 4), put(REQUEST + 8, unique, 8),
        put(REQUEST + 16, 1, 8);
    for (unsigned k = 0; k < count; k++)
        atomic_store(number(AVAIL + 4 + 2 * ((index + k) % SIZE)), 0);
    atomic_store(number(AVAIL + 2), (uint16_t)(index + count));
    if (write(live.kick, &one, sizeof one) < 0) exit(1);
}

/* Until all are used, for 20 seconds at most. */
static void wait_for_all(const char *what) {
    for (int tries = 0; atomic_load(number(USED + 2)) != atomic_load(number(AVAIL + 2)); tries++) {
        expect(what, live_refusal(&live), 0);
        expect(what, tries < 200000, 1);
        usleep(100);
    }
}

static int start(uint16_t size, size_t region_count) {
    const struct pk_region regions[] = {{0, SEAM, (uintptr_t)low},
                                        {SEAM, MEMORY - SEAM, (uintptr_t)high},
                                        {0, PAGE, (uintptr_t)low}};
    int kick = live.kick, call = live.call;
    memset(low, 0, SEAM), memset(high, 0, MEMORY - SEAM);
    live = (struct live){.queue = {.desc = DESC, .avail = AVAIL, .used = USED, .size = size},
                         .kick = kick,
                         .call = call,
                         .options = &options,
                         .answer = answer};
    return live_start(&live, regions, region_count, THREADS);
}

int main(void) {
    low = pages(SEAM), high = pages(MEMORY - SEAM);
    live.kick = eventfd(0, EFD_NONBLOCK | EFD_CLOEXEC);
    live.call = eventfd(0, EFD_NONBLOCK | EFD_CLOEXEC);
    expect("a size that is none", (uint64_t)start(3, 2), EINVAL);
    expect("regions that overlap", (uint64_t)start(SIZE, 3), EINVAL);
    expect("a start", (uint64_t)start(SIZE, 2), 0);
    for (unsigned k = 0; k < CHAINS; k++) {
        offer(1 + k % SIZE, 77, 0x100);
        wait_for_all("a ring that crosses two regions");
    }
    for (uint32_t room = 1; room < 20; room++) {
        offer(SIZE, 0, room);
        wait_for_all("an answer that fails, in a short reply buffer");
    }
    offer(1, 77, 0x100);
    wait_for_all("a good request behind these");
    expect("its reply", *(uint32_t *)place_of(REPLY), 120);
    live_stop(&live);
    return 0;
}
