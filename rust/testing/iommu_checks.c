/* Checks behind an IOMMU: iommu DAEMON DIR WHAT [N]. */
#define _GNU_SOURCE
#include "chance.h"
#include "iommu.h"
#include <errno.h>
#include <fcntl.h>
#include <linux/fuse.h>
#include <poll.h>
#include <signal.h>
#include <stdio.h>
#include <stdlib.h>
#include <string.h>
#include <sys/mman.h>
#include <unistd.h>

enum { ROOT = 1 };

static struct reply reply;
/* ------------------------------------------------------------- requests */

static void read_other(const char *what, const uint8_t *bytes, size_t len) {
    struct fuse_read_in in = {.size = 30000};
    uint64_t node = look_up(&front, ROOT, "other");
    in.fh = open_node(&front, node, O_RDONLY);
    front_ask(&front, 1, FUSE_READ, node, &in, sizeof in, &reply);
    check(what, reply.error == 0 && reply.len == len && !memcmp(reply.data, bytes, len));
}

static size_t load_other(const char *dir, uint8_t *bytes, size_t most) {
    char path[4096];
    snprintf(path, sizeof path, "%s/other", dir);
    FILE *file = fopen(path, "r");
    if (!file) die("no file");
    size_t len = fread(bytes, 1, most, file);
    fclose(file);
    return len;
}

/* A request that isn't answered in time, and is when misses are answered again. */
static void must_wait_for(int how, const char *what) {
    struct fuse_getattr_in in = {0};
    flush();
    manner = how;
    front_send(&front, 1, FUSE_GETATTR, ROOT, &in, sizeof in, 16 + 104);
    if (front_wait(&front, 1, 3000)) die("%s: the request is answered", what);
    manner = HONEST;
    if (!front_wait(&front, 1, 20000)) die("%s: the request isn't answered any more", what);
    front_read(&front, 1, &reply);
    check(what, reply.error == 0);
}

/* ------------------------------------------------------------- checks */

/* Requests go on whatever is unmapped between them, and see the memory that is mapped then. */
static void serves(const char *dir, unsigned count) {
    static uint8_t bytes[1 << 16];
    size_t len = load_other(dir, bytes, sizeof bytes);
    for (unsigned k = 0; k < count; k++) {
        manner = k % 3 == 2 ? LARGE : HONEST;
        if (k % 2) flush();
        if (k % 7 == 0) tell(INVALIDATE, 0, 0, 0, 0);
        read_other("READ", bytes, len);
        ask_root("GETATTR");
    }
    manner = HONEST;
    /* The request's pages are others now, with a request for a node that isn't there. */
    moved = 0x80000;
    tell(INVALIDATE, SHIFT + request_at(0), request_at(RINGS) - request_at(0), 0, 0);
    struct fuse_getattr_in in = {0};
    struct fuse_in_header other = {.len = sizeof other + sizeof in,
                                   .opcode = FUSE_GETATTR,
                                   .unique = front.rings[1].unique + 1,
                                   .nodeid = 1 << 20};
    memcpy(front_at(&front, request_at(1) + moved), &other, sizeof other);
    front_send(&front, 1, FUSE_GETATTR, ROOT, &in, sizeof in, 16 + 104);
    if (!front_wait(&front, 1, 20000)) die("a request of other pages isn't answered");
    front_read(&front, 1, &reply);
    check("a page that is mapped to another one is read there", reply.error > 0);
    moved = 0;
    tell(INVALIDATE, SHIFT + request_at(0), request_at(RINGS) - request_at(0), 0, 0);
    ask_root("GETATTR from the first page again");
    printf("iommu: %u rounds, %u misses, %u updates\n", count, misses, updates);
}

/* Updates that are none are refused, and the connection goes on. */
static void refuses_numbers(void) {
    uint64_t user = user_at(0), at = SHIFT + (1ull << 40);
    check("length 0", tell(UPDATE, at, 0, user, BOTH) == 1);
    check("a part of a page", tell(UPDATE, at, 100, user, BOTH) == 1);
    check("an odd I/O address", tell(UPDATE, at + 8, PAGE, user, BOTH) == 1);
    check("an odd address", tell(UPDATE, at, PAGE, user + 8, BOTH) == 1);
    check("past 2^64", tell(UPDATE, -(uint64_t)PAGE, 2 * PAGE, user, BOTH) == 1);
    check("up to 2^64", tell(UPDATE, -(uint64_t)PAGE, PAGE, user, BOTH) == 1);
    check("a length past 2^64", tell(UPDATE, at, -(uint64_t)PAGE, user, BOTH) == 1);
    check("outside the memory", tell(UPDATE, at, PAGE, 0x1000, BOTH) == 1);
    check("behind the memory",
          tell(UPDATE, at, 2 * PAGE, user_at(QUIET) + QUIET_LEN - PAGE, BOTH) == 1);
    check("no access", tell(UPDATE, at, PAGE, user, NONE) == 1);
    check("an access that is none", tell(UPDATE, at, PAGE, user, 4) == 1);
    check("a miss of the front-end's", tell(MISS, at, PAGE, user, BOTH) == 1);
    check("another kind", tell(77, at, PAGE, user, BOTH) == 1);
    check("INVALIDATE of nothing", tell(INVALIDATE, at, 0, 0, 0) == 1);
    check("INVALIDATE past 2^64", tell(INVALIDATE, -(uint64_t)PAGE, PAGE + 1, 0, 0) == 1);
    check("INVALIDATE of what isn't mapped", tell(INVALIDATE, at, PAGE, 0, 0) == 0);
    for (unsigned k = 0; k < 200; k++)
        check("updates over one another",
              tell(UPDATE, at + k % 7 * PAGE, (1 + k % 13) * PAGE, user + k % 5 * PAGE,
                   k % 3 ? READ : BOTH) == 0);
    check("INVALIDATE of their middle", tell(INVALIDATE, at + 3 * PAGE, PAGE, 0, 0) == 0);
    ask_root("GETATTR after updates that are none");
    printf("iommu: updates that are none are refused\n");
}

/* A page that is refused makes its chain faulty, and a ring that is refused waits for its reset. */
static void refuses_pages(void) {
    struct fuse_getattr_in in = {0};
    uint64_t word;
    struct pollfd refused = {front.rings[1].err, POLLIN, 0};
    ask_root("GETATTR");
    manner = REFUSING;
    tell(INVALIDATE, SHIFT + request_at(1), 0x100000, 0, 0);
    front_send(&front, 1, FUSE_GETATTR, ROOT, &in, sizeof in, 16 + 104);
    if (!front_wait(&front, 1, 20000)) die("a chain that is refused isn't returned");
    front_read(&front, 1, &reply);
    check("a chain that is refused has no reply", reply.error == -1);
    manner = HONEST;
    ask_root("GETATTR when nothing is refused any more");
    /* A reply buffer that may only be read is no miss. */
    tell(INVALIDATE, SHIFT + HIGH, REGION_LEN, 0, 0);
    tell(UPDATE, SHIFT + HIGH, REGION_LEN, user_at(HIGH), READ);
    front_send(&front, 1, FUSE_GETATTR, ROOT, &in, sizeof in, 16 + 104);
    if (!front_wait(&front, 1, 20000)) die("a chain without permission isn't returned");
    front_read(&front, 1, &reply);
    check("a reply buffer that may be read alone", reply.error == -1);
    tell(UPDATE, SHIFT + HIGH, REGION_LEN, user_at(HIGH), BOTH);
    ask_root("GETATTR when it may be written");
    manner = REFUSING;
    flush();
    front_send(&front, 1, FUSE_GETATTR, ROOT, &in, sizeof in, 16 + 104);
    check("a ring that is refused is reported",
          poll(&refused, 1, 20000) == 1 && read(refused.fd, &word, sizeof word) > 0);
    manner = HONEST;
    uint16_t position = stop_ring(1);
    check("it stands before the chain", position == (uint16_t)(front.rings[1].offered - 1));
    start_ring(1, position);
    if (!front_wait(&front, 1, 20000)) die("a ring that was refused doesn't go on");
    ask_root("GETATTR after a ring was refused");
    printf("iommu: what is refused is a fault, once\n");
}

/* A chain that nobody has taken, whose request isn't mapped: while its ring stops nothing is asked
 * for. */
static void asks_nothing(void) {
    for (int stops = 0; stops < 2; stops++) {
        uint16_t position = front.rings[1].offered;
        usleep(300000);
        tell(INVALIDATE, SHIFT + request_at(1), 0x100000, 0, 0);
        front_offer(&front, 1, 0); /* the last one again, without a kick */
        unsigned before = misses;
        if (stops)
            check("the chain stays in the ring", stop_ring(1) == position);
        else
            enable_ring(1, 0);
        usleep(100000);
        check("no miss is sent while a ring stops", misses == before);
        if (stops)
            start_ring(1, position);
        else
            enable_ring(1, 1);
        if (!front_wait(&front, 1, 20000)) die("a ring that stopped doesn't go on");
    }
}

/* The memory is without the rings for a while. Then what is missed is asked for again. */
static void loses_memory(void) {
    struct {
        uint32_t count, padding;
        uint64_t guest, len, user, offset;
    } high = {1, 0, HIGH, REGION_LEN, user_at(HIGH), REGION_LEN};
    pthread_mutex_lock(&line);
    check("SET_MEM_TABLE without the rings",
          front_tell(&front, SET_MEM_TABLE, &high, sizeof high, &front.memory_fd, 1) == 0);
    front_set_memory(&front);
    pthread_mutex_unlock(&line);
    flush();
    ask_root("GETATTR when the memory is back");
}

/* No message waits for a miss. */
static void stops(void) {
    struct fuse_getattr_in in = {0};
    must_wait_for(SILENT, "silence");
    must_wait_for(EMPTY, "answers that map nothing");
    must_wait_for(FLUSHING, "mappings that are gone at once");
    for (int k = 0; k < 4; k++) {
        manner = k % 2 ? EMPTY : SILENT;
        flush();
        front_send(&front, 1, FUSE_GETATTR, ROOT, &in, sizeof in, 16 + 104);
        usleep(200000);
        uint64_t before = now();
        if (k < 2) {
            uint16_t position = stop_ring(1);
            check("GET_VRING_BASE waits for no miss", now() - before < 500);
            check("the chain stays in the ring", position + 1 == front.rings[1].offered);
            start_ring(1, position);
        } else {
            enable_ring(1, 0);
            check("SET_VRING_ENABLE waits for no miss", now() - before < 500);
            enable_ring(1, 1);
        }
        manner = HONEST;
        if (!front_wait(&front, 1, 20000)) die("a ring that waited for a miss doesn't go on");
        ask_root("GETATTR after a stop");
    }
    asks_nothing();
    loses_memory();
    printf("iommu: no message waits for a miss\n");
}

/* All is unmapped while a chain is in flight: that waits for nobody, and the chain is returned. */
static void flies(const char *dir) {
    struct fuse_open_in in = {.flags = O_RDONLY};
    struct fuse_open_out out;
    char path[4096];
    uint64_t node = look_up(&front, ROOT, "slow");
    snprintf(path, sizeof path, "%s/slow", dir);
    signal(SIGIO, SIG_IGN);
    int fd = open(path, O_RDWR);
    if (fd < 0 || fcntl(fd, F_SETLEASE, F_WRLCK)) die("no lease: %s", strerror(errno));
    front_send(&front, 1, FUSE_OPEN, node, &in, sizeof in, 16 + sizeof out);
    if (front_wait(&front, 1, 300)) die("the file isn't slow");
    manner = EMPTY;
    uint64_t before = now();
    for (int k = 0; k < 50; k++) flush();
    check("INVALIDATE waits for no chain", now() - before < 2000);
    /* The ring's pages mean others now: for the next chains. */
    check("an update of the ring's pages",
          tell(UPDATE, SHIFT + avail_at(1), 2 * PAGE, user_at(0x700000), BOTH) == 0);
    close(fd);
    if (!front_wait(&front, 1, 20000)) die("a chain whose pages were unmapped isn't returned");
    front_read(&front, 1, &reply);
    check("its reply is whole", reply.error == 0 && reply.len == sizeof out);
    manner = HONEST;
    flush();
    ask_root("GETATTR after it");
    printf("iommu: a chain in flight keeps its pages\n");
}

/* The kilobytes that the daemon has: its child in the sandbox. */
static unsigned long kilobytes(void) {
    char command[128], line[64] = "0";
    snprintf(command, sizeof command,
             "cat /proc/%d/status $(pgrep -P %d | sed 's,.*,/proc/&/status,') | "
             "awk '/VmRSS/ && $2 > m { m = $2 } END { print m }'",
             (int)front.pid, (int)front.pid);
    FILE *pipe = popen(command, "r");
    if (pipe && !fgets(line, sizeof line, pipe)) line[0] = '0';
    if (pipe) pclose(pipe);
    return strtoul(line, NULL, 10);
}

/* As many mappings as it likes: the daemon keeps few. Most of them want no answer. */
static void many(unsigned count) {
    unsigned long before = kilobytes();
    pthread_mutex_lock(&line);
    for (unsigned k = 0; k < count; k++) {
        struct iotlb body = {(2 * (uint64_t)k + 1) * PAGE, PAGE, user_at(k % 2 * PAGE), BOTH,
                             UPDATE, {0}};
        if (k % 256)
            front_say(&front, IOTLB_MSG, &body, sizeof body);
        else if (front_tell(&front, IOTLB_MSG, &body, sizeof body, NULL, 0))
            die("update %u is refused", k);
    }
    pthread_mutex_unlock(&line);
    unsigned long after = kilobytes();
    check("the daemon keeps few mappings", after - before < 64 << 10);
    ask_root("GETATTR after many updates");
    printf("iommu: %u updates, %lu KiB before, %lu KiB after\n", count, before, after);
}

/* The channel ends, and another is opened; and it has replies to nothing. */
static void channels(void) {
    struct fuse_getattr_in in = {0};
    for (int k = 0; k < 100; k++) {
        manner = k % 2 ? SILENT : HONEST;
        flush();
        front_send(&front, 1, FUSE_GETATTR, ROOT, &in, sizeof in, 16 + 104);
        if (k % 3 == 0) send_rubbish(channel[0]);
        close_channel();
        manner = HONEST;
        open_channel();
        if (!front_wait(&front, 1, 20000)) die("no other channel will do");
        ask_root("GETATTR over another channel");
    }
    printf("iommu: 100 channels\n");
}

static bool is_marked(const uint8_t *log, uint64_t guest) {
    return log[guest / PAGE / 8] >> guest / PAGE % 8 & 1;
}

/* Marks are the guest's pages, whatever the driver calls them. */
static void marks(void) {
    enum { LOG_LEN = 1 << 18 }; /* up to 8 GiB */
    int fd = memfd_create("log", MFD_CLOEXEC);
    uint64_t told[2] = {LOG_LEN, 0}, features = front.features | 1ull << 26;
    struct fuse_read_in in = {.size = 10000};
    unsigned marked = 0;
    if (fd < 0 || ftruncate(fd, LOG_LEN)) die("no log");
    uint8_t *log = mmap(NULL, LOG_LEN, PROT_READ | PROT_WRITE, MAP_SHARED, fd, 0);
    uint64_t node = look_up(&front, ROOT, "other");
    in.fh = open_node(&front, node, O_RDONLY);
    pthread_mutex_lock(&line);
    if (front_tell(&front, SET_LOG_BASE, told, sizeof told, &fd, 1)) die("no log");
    if (front_tell(&front, SET_FEATURES, &features, sizeof features, NULL, 0)) die("no features");
    pthread_mutex_unlock(&line);
    front_send(&front, 1, FUSE_READ, node, &in, sizeof in, 16 + 40000);
    if (!front_wait(&front, 1, 20000)) die("READ isn't answered");
    front_read(&front, 1, &reply);
    check("bytes of READ", reply.len == 10000);
    for (uint64_t page = 0; page < LOG_LEN * 8ull; page++) marked += is_marked(log, PAGE * page);
    check("the ring's page is marked", is_marked(log, used_at(1)));
    check("the header's page is marked", is_marked(log, room_at(1)));
    for (uint64_t k = 0; k < 3; k++)
        check("a page of data is marked", is_marked(log, room_at(1) + 0x1000 + 0x2000 * k));
    check("no other page is marked", marked == 5);
    printf("iommu: %u pages of a READ are marked\n", marked);
}

int main(int argc, char **argv) {
    if (argc < 4)
        die("usage: iommu DAEMON DIR serves|numbers|pages|last|large|restarts|stops|flies|"
            "stores|many|channels|marks|anyhow [N]");
    const char *what = argv[3], *dir = argv[2];
    unsigned count = argc > 4 ? (unsigned)strtoul(argv[4], NULL, 10) : 0;
    front_begin(&front, argv[1], dir, NULL);
    front.features |= 1ull << 33;
    front.has_iommu = true;
    front.shift = SHIFT;
    front_set_up(&front);
    open_channel();
    start_ring(0, 0);
    start_ring(1, 0);
    begin_session(&front);
    if (!strcmp(what, "serves"))
        serves(dir, count);
    else if (!strcmp(what, "numbers"))
        refuses_numbers();
    else if (!strcmp(what, "pages"))
        refuses_pages();
    else if (!strcmp(what, "last"))
        last();
    else if (!strcmp(what, "large"))
        large();
    else if (!strcmp(what, "restarts"))
        restarts(count);
    else if (!strcmp(what, "stores"))
        stores(dir, count);
    else if (!strcmp(what, "stops"))
        stops();
    else if (!strcmp(what, "flies"))
        flies(dir);
    else if (!strcmp(what, "many"))
        many(count);
    else if (!strcmp(what, "channels"))
        channels();
    else if (!strcmp(what, "marks"))
        marks();
    else if (!strcmp(what, "anyhow"))
        anyhow(count);
    else
        die("no such check: %s", what);
    close_channel();
    front_leave(&front);
    return failed;
}
