/* Threads that look for requests before they sleep, for up to 10 ms here: what ends a ring ends the
 * look at once, and a guest that asks nothing costs nothing. */
#define _GNU_SOURCE
#include "checks.h"
#include "held.h"
#include <stdio.h>
#include <stdlib.h>
#include <unistd.h>

enum { RING = 1, SET_VRING_ENABLE = 18, OFTEN = 100, BETWEEN = 50, ROUNDS = 20 };

/* Requests that come soon after each other. After the last one a thread looks for the next. */
static void ask_often(void) {
    for (unsigned k = 0; k < OFTEN; k++) {
        usleep(BETWEEN);
        ask_beside(RING);
    }
}

static void end_and_go_on(void) {
    uint32_t enable[2] = {RING, 0};
    ask_often();
    uint64_t before = now();
    uint16_t position = front_stop_ring(&front, RING);
    must_be_soon("GET_VRING_BASE", before);
    check("the position", position == front.rings[RING].offered);
    front_start_ring(&front, RING, position);
    ask_often();
    for (enable[1] = 0; enable[1] < 2; enable[1]++) {
        before = now();
        check("SET_VRING_ENABLE",
              front_tell(&front, SET_VRING_ENABLE, enable, sizeof enable, NULL, 0) == 0);
        must_be_soon("SET_VRING_ENABLE", before);
    }
    ask_often();
    before = now();
    front_set_memory(&front);
    must_be_soon("SET_MEM_TABLE", before);
}

/* Whether a thread looks by now: few requests are notified. Not where others take its processor. */
static bool is_looked_for(void) {
    uint64_t kicks = front.rings[RING].kicks;
    ask_often();
    return front.rings[RING].kicks - kicks < OFTEN / 2;
}

void looks(unsigned seconds) {
    unsigned looked = 0;
    for (unsigned k = 0; k < ROUNDS; k++) {
        looked += is_looked_for();
        end_and_go_on();
    }
    /* several threads: the driver notifies those that sleep, too */
    const char *threads = getenv("THREADS");
    check("a thread looks", looked > 0 || (threads && strtoul(threads, NULL, 10) > 1));
    usleep(200000);
    double before = front_processor(&front);
    sleep(seconds);
    double took = front_processor(&front) - before;
    printf("looks: in %u of %u rounds; %.2f ms of processor time in %u s without a request\n",
           looked, ROUNDS, took, seconds);
    check("nobody asks, and the daemon sleeps", took < 1);
}
