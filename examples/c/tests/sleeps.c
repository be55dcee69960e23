/* No notification is lost, with an event index or flags:
 *     sleeps COUNT [THREADS [event]]
 * A driver sleeps as soon as it may (VIRTIO 1.2, 2.7.7). The device is as fast as it can be, and
 * disables notifications while it pops anyway (2.7.10). Each chain is pushed once. Each thread of
 * the queue has its own handle, and chains are pushed in any order. */
#include "driver.h"
#include <linux/fuse.h>
#include <stdio.h>
#include <stdlib.h>
#include <string.h>

enum { TOO_LONG = 20000 };

static struct driver driver;

/* A GETATTR at each even descriptor, and its reply buffer at the next. */
static void draw_requests(void) {
    struct fuse_in_header head = {
        .len = 56, .opcode = FUSE_GETATTR, .unique = 1, .nodeid = FUSE_ROOT_ID};
    for (unsigned k = 0; k < RING_SIZE; k += 2) {
        uint64_t at = REQUESTS + 64 * k, room = HIGH + 256 * k;
        memcpy(place_of(&driver, at), &head, sizeof head);
        put_descriptor(&driver, DESC, k, at, 56, 1, k + 1);
        put_descriptor(&driver, DESC, k + 1, room, 120, 2, 0);
    }
}

int main(int argc, char **argv) {
    uint64_t wanted = argc > 1 ? strtoull(argv[1], NULL, 10) : 0, seed = 1, slept = 0, chains = 0;
    size_t thread_count = argc > 2 ? strtoul(argv[2], NULL, 10) : 1;
    if (wanted == 0 || thread_count == 0)
        return fprintf(stderr, "usage: sleeps COUNT [THREADS [event]]\n"), 2;
    driver_begin(&driver, thread_count, argc > 3);
    draw_requests();
    for (; slept < wanted; slept++) {
        seed = seed * 6364136223846793005u + 1442695040888963407u;
        for (unsigned k = 0; k <= seed >> 62; k++, chains++)
            offer(&driver, (uint16_t)(2 * driver.offered % RING_SIZE));
        kick(&driver);
        for (volatile unsigned wait = seed >> 40 & 255; wait > 0;) wait = wait - 1;
        if (!wait_for_all(&driver, TOO_LONG))
            die("a notification is lost after %llu sleeps", (unsigned long long)slept);
    }
    driver_end(&driver);
    if (driver.served != chains) die("%llu chains came back", (unsigned long long)driver.served);
    printf("%llu sleeps, %llu chains, up to %u in flight: none lost\n", (unsigned long long)slept,
           (unsigned long long)chains, driver.most);
    return 0;
}
