/* The daemon's log: log DAEMON DIR broken|unread N. A guest breaks its ring N times. With `broken`
 * each is a line of the log, until its limit is reached. With `unread` standard error is a full
 * pipe that nobody reads: each message and an orderly request are answered all the same, and the
 * daemon ends with its front-end. */
#define _GNU_SOURCE
#include "front.h"
#include <fcntl.h>
#include <linux/fuse.h>
#include <poll.h>
#include <stdio.h>
#include <stdlib.h>
#include <string.h>
#include <unistd.h>

enum { ROOT = 1, LONGEST = 120 };

static struct front front;
static struct reply reply;

/* Standard error becomes a full pipe. Answers what it was. */
static int fill_errors(void) {
    int ends[2], before = fcntl(STDERR_FILENO, F_DUPFD_CLOEXEC, 10);
    char bytes[4096] = {0};
    if (before < 0 || pipe2(ends, O_CLOEXEC)) die("no pipe");
    int flags = fcntl(ends[1], F_GETFL);
    fcntl(ends[1], F_SETFL, flags | O_NONBLOCK);
    while (write(ends[1], bytes, sizeof bytes) > 0) {}
    while (write(ends[1], bytes, 1) > 0) {}
    fcntl(ends[1], F_SETFL, flags);
    dup2(ends[1], STDERR_FILENO);
    return before;
}

static void begin_ring(uint16_t available) {
    (void)front_stop_ring(&front, 1);
    memset(front_at(&front, avail_at(1)), 0, 0x1000);
    memset(front_at(&front, used_at(1)), 0, 0x1000);
    atomic_store(index_at(&front, avail_at(1) + 2), available);
    front.rings[1].offered = front.rings[1].seen = 0;
    front_start_ring(&front, 1, 0);
}

/* More chains are available than the ring has places. */
static void break_ring(void) {
    struct pollfd err = {front.rings[1].err, POLLIN, 0};
    uint64_t word;
    begin_ring(RING_SIZE + 1);
    if (poll(&err, 1, 20000) != 1 || read(err.fd, &word, sizeof word) < 0)
        die("a broken ring isn't refused");
}

int main(int argc, char **argv) {
    struct fuse_getattr_in in = {0};
    if (argc < 5) die("usage: log DAEMON DIR broken|unread N");
    unsigned count = (unsigned)strtoul(argv[4], NULL, 10);
    int errors = strcmp(argv[3], "unread") ? -1 : fill_errors();
    front_begin(&front, argv[1], argv[2], NULL);
    if (errors >= 0) dup2(errors, STDERR_FILENO);
    alarm(LONGEST); /* a daemon that hangs ends this */
    front_set_up(&front);
    front_start_ring(&front, 1, 0);
    for (unsigned k = 0; k < count; k++) break_ring();
    begin_ring(0);
    begin_session(&front);
    front_ask(&front, 1, FUSE_GETATTR, ROOT, &in, sizeof in, &reply);
    if (reply.error) die("an orderly GETATTR: %s", strerror(reply.error));
    front_leave(&front);
    printf("log: %u broken rings\n", count);
    return 0;
}
