/* What ends a ring doesn't wait for a call that the host holds. Nothing is stored in the guest's
 * memory for that call until its ring goes on. If the ring goes on from the same place, the chain
 * is returned; after a reset nobody gets its reply. A state isn't saved meanwhile. */
#define _GNU_SOURCE
#include "checks.h"
#include "held.h"
#include <fcntl.h>
#include <linux/fuse.h>
#include <pthread.h>
#include <stdio.h>
#include <stdlib.h>
#include <string.h>
#include <sys/mman.h>
#include <unistd.h>

enum {
    SET_VRING_ENABLE = 18,
    RESET_DEVICE = 34,
    SET_DEVICE_STATE_FD = 42,
    CHECK_DEVICE_STATE = 43,
    MEMORY = 2 * REGION_LEN + QUIET_LEN
};

/* Copies the guest's memory, except the words by which a ring that runs enables kicks (flags and
 * avail_event of its used ring): its threads store them whenever they have looked for a chain. */
static void copy_memory(uint8_t *copy, size_t first_that_runs) {
    memcpy(copy, front.memory, MEMORY);
    for (size_t ring = first_that_runs; ring < RINGS; ring++) {
        memset(copy + used_at(ring), 0, sizeof(uint16_t));
        memset(copy + used_at(ring) + 4 + 8 * RING_SIZE, 0, sizeof(uint16_t));
    }
}

/* The call ends, and yet nothing is stored in the guest's memory. */
static void end_call_unseen(const char *what, size_t first_that_runs) {
    uint8_t *before = malloc(MEMORY), *behind = malloc(MEMORY);
    if (!before || !behind) die("no memory");
    copy_memory(before, first_that_runs);
    close(lease);
    usleep(300000);
    copy_memory(behind, first_that_runs);
    check(what, memcmp(before, behind, MEMORY) == 0);
    free(before);
    free(behind);
}

static void enable(uint32_t how) {
    uint32_t message[2] = {1, how};
    check("SET_VRING_ENABLE",
          front_tell(&front, SET_VRING_ENABLE, message, sizeof message, NULL, 0) == 0);
}

/* A ring that is stopped, or disabled. Its call ends before it goes on, or after that. */
static void pause_ring(const char *dir, uint64_t node, bool stops, bool ends_before) {
    const char *what = stops ? "GET_VRING_BASE" : "SET_VRING_ENABLE";
    hold(dir, node);
    uint16_t used = returned(1), position = front.rings[1].offered;
    uint64_t before = now();
    if (stops)
        check("the position", front_stop_ring(&front, 1) == position);
    else
        enable(0);
    must_be_soon(what, before);
    if (ends_before) end_call_unseen("nothing is stored while the ring stands", 2);
    ask_beside(2);
    check("no chain is returned while the ring stands", returned(1) == used);
    before = now();
    if (stops)
        front_start_ring(&front, 1, position);
    else
        enable(1);
    must_be_soon("a ring that goes on", before);
    if (!ends_before) close(lease);
    check("the chain is returned when the ring goes on",
          is_returned(1, (uint16_t)(used + 1)) && is_slow_one(used_at(1)));
    close_slow(node);
    printf("%s with a call that the host holds: answered, and its chain returned later\n", what);
}

/* A memory without the ring's parts. A chain that is available then is served when they are
 * back. */
static void lose_memory(const char *dir, uint64_t node, bool holds) {
    uint64_t user = (uint64_t)(uintptr_t)front.memory;
    uint64_t high[4] = {HIGH, REGION_LEN, user + REGION_LEN, REGION_LEN};
    struct fuse_getattr_in in = {0};
    uint16_t used = returned(1);
    if (holds) hold(dir, node);
    uint64_t before = now();
    tell_memory(high, 1);
    must_be_soon("SET_MEM_TABLE without the ring", before);
    if (holds) end_call_unseen("nothing is stored without the ring's memory", 2);
    send_apart(1, QUICK_SLOT, FUSE_GETATTR, ROOT, &in, sizeof in, 16 + 104);
    usleep(100000);
    check("no chain is returned without the ring's memory", returned(1) == used);
    before = now();
    front_set_memory(&front);
    must_be_soon("SET_MEM_TABLE with the ring", before);
    check("chains are returned when the memory is back",
          is_returned(1, (uint16_t)(used + 1 + holds)));
    if (holds) close_slow(node);
    ask_beside(2);
    printf("memory without the ring%s: the ring goes on when it is back\n",
           holds ? ", with a call that the host holds" : "");
}

/* The driver begins again, with empty rings. */
static void begin_rings(void) {
    for (size_t ring = 1; ring < RINGS; ring++) {
        (void)front_stop_ring(&front, ring);
        memset(front_at(&front, avail_at(ring)), 0, 0x1000);
        memset(front_at(&front, used_at(ring)), 0, 0x1000);
        front.rings[ring].offered = front.rings[ring].seen = 0;
        front_start_ring(&front, ring, 0);
    }
}

/* A reset, by RESET_DEVICE or by rings that begin at 0. The next session begins while the host
 * still holds the call, by another ring. */
static void reset(const char *dir, uint64_t node, bool has_message, bool has_threads) {
    struct fuse_init_in in = {.major = 7, .minor = 38, .max_readahead = 1 << 17, .flags = ~0u};
    hold(dir, node);
    uint64_t before = now();
    if (has_message) {
        check("RESET_DEVICE", front_tell(&front, RESET_DEVICE, NULL, 0, NULL, 0) == 0);
        must_be_soon("RESET_DEVICE", before);
    }
    begin_rings();
    front_ask(&front, 2, FUSE_INIT, 0, &in, sizeof in, &reply);
    expect("INIT beside a call of the session before", reply.error, 0);
    if (has_threads) ask_beside(1);
    uint16_t used = returned(1);
    end_call_unseen("nothing is stored after a reset", 1);
    ask_beside(1);
    ask_beside(2);
    check("only the new session's chains are returned", returned(1) == (uint16_t)(used + 1));
    printf("a reset %s with a call that the host holds: its reply is dropped\n",
           has_message ? "by RESET_DEVICE" : "of the rings");
}

/* Whether a state is saved (direction 0), or one without a byte loaded (1). */
static bool is_transferred(uint32_t direction) {
    uint32_t how[2] = {direction, 0};
    int ends[2], theirs = direction == 0;
    char bytes[4096];
    if (pipe2(ends, O_CLOEXEC)) die("no pipe");
    if (front_tell(&front, SET_DEVICE_STATE_FD, how, sizeof how, &ends[theirs], 1) & 0xff)
        die("no transfer");
    close(ends[theirs]);
    while (direction == 0 && read(ends[0], bytes, sizeof bytes) > 0) {}
    close(ends[!theirs]);
    return front_tell(&front, CHECK_DEVICE_STATE, NULL, 0, NULL, 0) == 0;
}

static void save(const char *dir, uint64_t node) {
    hold(dir, node);
    uint16_t used = returned(1), position = front.rings[1].offered,
             other = front.rings[2].offered;
    check("the position", front_stop_ring(&front, 1) == position);
    check("the position", front_stop_ring(&front, 2) == other);
    uint64_t before = now();
    check("no state is saved while the host holds a call", !is_transferred(0));
    must_be_soon("a state that isn't saved", before);
    check("nor is one loaded", !is_transferred(1)); /* alone.sh looks why */
    front_start_ring(&front, 1, position);
    front_start_ring(&front, 2, other);
    close(lease);
    check("the source goes on", is_returned(1, (uint16_t)(used + 1)) && is_slow_one(used_at(1)));
    close_slow(node);
    position = front.rings[1].offered;
    check("the position", front_stop_ring(&front, 1) == position);
    check("a state is saved later", is_transferred(0));
    front_start_ring(&front, 1, position);
    ask_beside(1);
    printf("a state isn't saved while the host holds a call, and the source goes on\n");
}

void stopped(const char *dir, uint64_t node, bool has_threads) {
    for (int stops = 0; stops < 2; stops++)
        for (int ends_before = 0; ends_before < 2; ends_before++)
            pause_ring(dir, node, stops, ends_before);
    lose_memory(dir, node, false);
    lose_memory(dir, node, true);
    save(dir, node);
    for (int has_message = 0; has_message < 2; has_message++) {
        reset(dir, node, has_message, has_threads);
        node = look_up(&front, ROOT, "slow");
    }
}
