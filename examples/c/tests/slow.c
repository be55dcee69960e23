/* No chain waits for another's answer while a thread of the queue sleeps:
 *     slow COUNT [THREADS [event]]
 * In each round as many chains as threads come, some at once and others one by one. Each is
 * answered only once each thread has one, so that a chain that no thread gets is found. */
#define _DEFAULT_SOURCE
#include "driver.h"
#include <linux/fuse.h>
#include <stdio.h>
#include <stdlib.h>
#include <unistd.h>

enum { TOO_LONG = 10000, TRIES = 100000, MICROSECONDS = 50 };

static struct driver driver;
static _Atomic size_t answering;

/* A GETATTR at each even descriptor, and its reply buffer at the next. */
static void draw_requests(void) {
    struct fuse_in_header head = {
        .len = 56, .opcode = FUSE_GETATTR, .unique = 1, .nodeid = FUSE_ROOT_ID};
    for (unsigned k = 0; k < RING_SIZE; k += 2) {
        uint64_t at = REQUESTS + 64 * k, room = HIGH + 256 * k;
        *(struct fuse_in_header *)(void *)place_of(&driver, at) = head;
        put_descriptor(&driver, DESC, k, at, 56, 1, k + 1);
        put_descriptor(&driver, DESC, k + 1, room, 120, 2, 0);
    }
}

/* Answers once each thread has a chain. */
static uint32_t answer_together(void *files, struct pk_chain *chain, struct pk_device *device,
                                const struct pk_call *call, const uint8_t *request) {
    answering++;
    for (unsigned tries = 0; answering < driver.thread_count; tries++) {
        if (tries == TRIES) die("a chain waits while a thread sleeps");
        usleep(MICROSECONDS);
    }
    return answer_some(files, chain, device, call, request);
}

int main(int argc, char **argv) {
    uint64_t wanted = argc > 1 ? strtoull(argv[1], NULL, 10) : 0, seed = 1;
    size_t thread_count = argc > 2 ? strtoul(argv[2], NULL, 10) : 2;
    if (wanted == 0 || thread_count == 0)
        return fprintf(stderr, "usage: slow COUNT [THREADS [event]]\n"), 2;
    driver_begin(&driver, thread_count, argc > 3);
    driver.live.answer = answer_together; /* no chain came yet */
    draw_requests();
    for (uint64_t round = 0; round < wanted; round++) {
        answering = 0;
        seed = seed * 6364136223846793005u + 1442695040888963407u;
        size_t at_once = 1 + (seed >> 33) % thread_count;
        for (size_t k = 0; k < thread_count; k++) {
            offer(&driver, (uint16_t)(2 * driver.offered % RING_SIZE));
            if (k + 1 < at_once) continue;
            kick(&driver);
            for (volatile unsigned wait = seed >> 40 & 4095; wait > 0;) wait = wait - 1;
        }
        if (!wait_for_all(&driver, TOO_LONG)) die("a notification is lost");
    }
    driver_end(&driver);
    printf("%llu rounds of %zu slow chains: none waits for another\n", (unsigned long long)wanted,
           thread_count);
    return 0;
}
