#define _GNU_SOURCE
#include "driver.h"
#include <errno.h>
#include <poll.h>
#include <stdarg.h>
#include <stdio.h>
#include <stdlib.h>
#include <string.h>
#include <sys/eventfd.h>
#include <sys/mman.h>
#include <unistd.h>

enum { MEMORY_LEN = 2 * REGION_LEN + QUIET_LEN, NO_INTERRUPT = 1, NO_NOTIFY = 1 };

void die(const char *format, ...) {
    va_list args;
    va_start(args, format);
    fputs("FAILED: ", stderr);
    vfprintf(stderr, format, args);
    fputc('\n', stderr);
    va_end(args);
    exit(1);
}

/* ------------------------------------------------------------- places */

uint8_t *place_of(const struct driver *driver, uint64_t guest) {
    if (guest < REGION_LEN) return driver->memory + guest;
    if (guest - HIGH < REGION_LEN) return driver->memory + REGION_LEN + (guest - HIGH);
    if (guest - QUIET < QUIET_LEN) return driver->memory + 2 * REGION_LEN + (guest - QUIET);
    die("no such place: %#llx", (unsigned long long)guest);
}

_Atomic uint16_t *index_of(const struct driver *driver, uint64_t guest) {
    return (_Atomic uint16_t *)(void *)place_of(driver, guest);
}

/* ------------------------------------------------------------- the queue */

static void start(struct driver *driver, uint16_t position) {
    uintptr_t host = (uintptr_t)driver->memory;
    const struct pk_region regions[REGIONS] = {{QUIET, QUIET_LEN, host + 2 * REGION_LEN},
                                               {0, REGION_LEN, host},
                                               {HIGH, REGION_LEN, host + REGION_LEN}};
    driver->live = (struct live){.queue = {.desc = DESC,
                                           .avail = AVAIL,
                                           .used = USED,
                                           .size = RING_SIZE,
                                           .next_avail = position,
                                           .event_index = driver->event_index},
                                 .kick = driver->live.kick,
                                 .call = driver->live.call,
                                 .options = &driver->options,
                                 .answer = answer_some,
                                 .files = &driver->answers};
    driver->offered = driver->seen = driver->told = position;
    int error = live_start(&driver->live, regions, REGIONS, driver->thread_count);
    if (error) die("the queue doesn't start: %s", strerror(error));
}

static void stop(struct driver *driver) {
    live_stop(&driver->live);
    driver->served += driver->live.served;
    if (driver->live.most > driver->most) driver->most = driver->live.most;
}

void driver_begin(struct driver *driver, size_t thread_count, bool event_index) {
    *driver = (struct driver){.thread_count = thread_count,
                              .event_index = event_index,
                              .answers = {.yields = thread_count > 1}};
    driver->memory =
        mmap(NULL, MEMORY_LEN, PROT_READ | PROT_WRITE, MAP_SHARED | MAP_ANONYMOUS, -1, 0);
    driver->live.kick = eventfd(0, EFD_NONBLOCK | EFD_CLOEXEC);
    driver->live.call = eventfd(0, EFD_NONBLOCK | EFD_CLOEXEC);
    if (driver->memory == MAP_FAILED || driver->live.kick < 0 || driver->live.call < 0)
        die("no memory");
    start(driver, 0);
}

void driver_reset(struct driver *driver) {
    stop(driver);
    memset(place_of(driver, AVAIL), 0, 0x1000);
    memset(place_of(driver, USED), 0, 0x1000);
    start(driver, 0);
}

void driver_end(struct driver *driver) {
    stop(driver);
    close(driver->live.kick);
    close(driver->live.call);
    munmap(driver->memory, MEMORY_LEN);
}

/* ------------------------------------------------------------- the driver */

void put_descriptor(const struct driver *driver, uint64_t table, unsigned k, uint64_t addr,
                    uint64_t len, unsigned flags, unsigned next) {
    struct {
        uint64_t addr;
        uint32_t len;
        uint16_t flags, next;
    } d = {addr, (uint32_t)len, (uint16_t)flags, (uint16_t)next};
    memcpy(place_of(driver, table) + 16 * (size_t)k, &d, sizeof d);
}

void offer(struct driver *driver, uint16_t head) {
    _Atomic uint16_t *entry = index_of(driver, AVAIL + 4 + 2u * (driver->offered % RING_SIZE));
    atomic_store_explicit(entry, head, memory_order_relaxed);
    driver->offered++;
    atomic_store_explicit(index_of(driver, AVAIL + 2), driver->offered, memory_order_release);
}

/* Whether `wanted`, an index that the device stored, lies from `from` on and before `to`. */
static bool is_passed(uint16_t wanted, uint16_t from, uint16_t to) {
    return (uint16_t)(to - wanted - 1) < (uint16_t)(to - from);
}

/* Whether the device has notifications enabled for the chains that became available since the last
 * one. */
static bool wants_kick(struct driver *driver) {
    uint16_t told = driver->told,
             flags = atomic_load_explicit(index_of(driver, USED), memory_order_relaxed);
    driver->told = driver->offered;
    if (!driver->event_index) return !(flags & NO_NOTIFY);
    uint16_t avail_event =
        atomic_load_explicit(index_of(driver, USED + 4 + 8 * RING_SIZE), memory_order_relaxed);
    return is_passed(avail_event, told, driver->offered);
}

void kick(struct driver *driver) {
    uint64_t one = 1;
    atomic_thread_fence(memory_order_seq_cst);
    if (!wants_kick(driver)) return;
    if (write(driver->live.kick, &one, sizeof one) < 0) die("no kick");
}

static bool is_back(struct driver *driver) {
    driver->seen = atomic_load_explicit(index_of(driver, USED + 2), memory_order_acquire);
    return driver->seen == driver->offered;
}

/* Enables the device's notification of the next used buffer, or disables it. Then the driver looks
 * again. */
static void want_call(struct driver *driver, bool wanted) {
    _Atomic uint16_t *used_event = index_of(driver, AVAIL + 4 + 2 * RING_SIZE);
    if (!driver->event_index)
        atomic_store_explicit(index_of(driver, AVAIL), wanted ? 0 : NO_INTERRUPT,
                              memory_order_relaxed);
    else if (wanted)
        atomic_store_explicit(used_event, driver->seen, memory_order_relaxed);
    if (wanted) atomic_thread_fence(memory_order_seq_cst);
}

bool wait_for_all(struct driver *driver, int milliseconds) {
    struct pollfd event = {driver->live.call, POLLIN, 0};
    uint64_t calls;
    for (;;) {
        want_call(driver, false);
        if (is_back(driver)) return true;
        uint16_t seen = driver->seen;
        want_call(driver, true);
        if (is_back(driver)) return true;
        if (driver->seen != seen) continue; /* it may have been used before the store */
        /* even if all are used: there was no notification */
        if (poll(&event, 1, milliseconds) <= 0) return false;
        if (read(event.fd, &calls, sizeof calls) < 0 && errno != EAGAIN) die("no call");
    }
}
