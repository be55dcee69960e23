/* Migration streams of one's own: state DAEMON DIR
 * SECONDS|full|lost|cut|turned|flags|writeback|idle. A state is taken out of the daemon, changed by
 * chance, and handed in, again and again, as the daemon's own or as virtiofsd's. Each time the
 * daemon says whether it takes it; no node and no handle that came so leads out of DIR, beside
 * which a file has the word `secret`; and a device that is reset after it serves as a new one. With
 * `full` the daemon has no descriptor left for the guest: memory comes all the same, and the state
 * goes out, and in again. With `lost` the guest holds a file that it has removed, which no path
 * leads to: such a state isn't taken. With `cut` the last bytes of a state are missing, one more
 * each time. With `turned` each bit of a state is turned, and the state is there twice. With
 * `flags`, and with `writeback` by a daemon that has this option, files are open with flags that
 * don't hold on the host. With `idle` the front-end leaves while no byte of a state comes. */
#define _GNU_SOURCE
#include "chance.h"
#include "front.h"
#include "moved.h"
#include <errno.h>
#include <fcntl.h>
#include <linux/fuse.h>
#include <signal.h>
#include <stdio.h>
#include <stdlib.h>
#include <string.h>
#include <sys/mman.h>
#include <time.h>
#include <unistd.h>

enum {
    RESET_DEVICE = 34,
    ADD_MEM_REG = 37,
    SET_DEVICE_STATE_FD = 42,
    CHECK_DEVICE_STATE,
    SAVE = 0,
    LOAD = 1,
    ROOT = 1,
    MOST = 1 << 15
};

static struct front front;
static struct reply reply;
static uint64_t first_node, first_file; /* of the session; the next ones are the numbers behind */

/* Hands the daemon one end of a pipe, and answers the other. */
static int begin_transfer(uint32_t direction) {
    uint32_t how[2] = {direction, 0};
    int ends[2], theirs = direction == SAVE;
    if (pipe2(ends, O_CLOEXEC)) die("no pipe");
    if (front_tell(&front, SET_DEVICE_STATE_FD, how, sizeof how, &ends[theirs], 1) & 0xff)
        die("no transfer");
    close(ends[theirs]);
    return ends[!theirs];
}

static size_t save(uint8_t *state) {
    int pipe = begin_transfer(SAVE);
    size_t len = 0;
    for (ssize_t count; (count = read(pipe, state + len, MOST - len)) > 0;) len += (size_t)count;
    close(pipe);
    if (front_tell(&front, CHECK_DEVICE_STATE, NULL, 0, NULL, 0)) die("the state isn't saved");
    return len;
}

/* Whether it is taken. A daemon that reads no further has closed its end. */
static bool load(const uint8_t *state, size_t len) {
    int pipe = begin_transfer(LOAD);
    for (ssize_t count; len > 0 && (count = write(pipe, state, len)) > 0; len -= (size_t)count)
        state += count;
    close(pipe);
    return front_tell(&front, CHECK_DEVICE_STATE, NULL, 0, NULL, 0) == 0;
}

/* Another name of the same length, which leads out if it is followed. */
static void rename_one(uint8_t *state, size_t len) {
    static const char *const names[][2] = {
        {"race-link", "../secret"}, {"file", "../."}, {"other", "../.."}, {"dir", "/.."}};
    const char *const *name = names[below(4)];
    uint8_t *at = memmem(state, len, name[0], strlen(name[0]));
    if (at) memcpy(at, name[1], strlen(name[1]));
}

static size_t change(uint8_t *state, size_t len) {
    size_t at = below(len), count = 1 + below(len - at < 40 ? len - at : 40);
    switch (below(6)) {
    case 0: return at + 1;
    case 1:
        memmove(state + at, state + at + count, len - at - count);
        return len - count > 0 ? len - count : 1;
    case 2:
        if (len + count > MOST) return len;
        memmove(state + at + count, state + at, len - at);
        return len + count;
    case 3: rename_one(state, len); return len;
    case 4: state[at] ^= (uint8_t)(1 << below(8)); return len;
    default: state[at] = (uint8_t)ONE_OF(0, 1, 2, 0x7f, 0x80, 0xff, chance()); return len;
    }
}

static bool read_at(uint64_t node, uint64_t file) {
    struct fuse_read_in in = {.fh = file, .size = 4096};
    front_ask(&front, 1, FUSE_READ, node, &in, sizeof in, &reply);
    if (!reply.error && memmem(reply.data, reply.len, "secret", 6))
        die("a file outside the directory is read");
    return !reply.error;
}

/* What a guest could do with the nodes and the handles that came. */
static unsigned look_about(void) {
    struct fuse_open_in open_in = {.flags = O_RDONLY};
    struct fuse_open_out out;
    unsigned count = 0;
    for (uint64_t k = 0; k < 6; k++) {
        uint64_t node = k ? first_node - 1 + k : ROOT;
        for (uint64_t file = first_file; file < first_file + 3; file++)
            count += read_at(node, file);
        front_ask(&front, 1, FUSE_LOOKUP, node, "secret", 7, &reply);
        if (!reply.error) die("a file outside the directory is found");
        front_ask(&front, 1, FUSE_OPEN, node, &open_in, sizeof open_in, &reply);
        if (reply.error) continue;
        memcpy(&out, reply.data, sizeof out);
        count += read_at(node, out.fh);
    }
    return count;
}

/* A stream may have had virtiofsd number its next node as one that there is: then a look-up is EIO,
 * and the one after it goes on. */
static uint64_t look_up_soon(const char *name) {
    front_ask(&front, 1, FUSE_LOOKUP, ROOT, name, strlen(name) + 1, &reply);
    return look_up(&front, ROOT, name);
}

/* From a reset to a session with some nodes, two of them open. */
static void begin_anew(void) {
    if (front_tell(&front, RESET_DEVICE, NULL, 0, NULL, 0)) die("no reset");
    front_start_ring(&front, 1, front.rings[1].offered);
    begin_session(&front);
    first_node = look_up_soon("race-link");
    look_up_soon("dir");
    first_file = open_node(&front, look_up_soon("file"), O_RDONLY);
    open_node(&front, look_up_soon("other"), O_RDONLY);
}

static void stop(void) {
    if (front_stop_ring(&front, 1) != front.rings[1].offered) die("another position");
}

static void hostile_streams(time_t end) {
    static uint8_t state[MOST], changed[MOST];
    unsigned loads = 0, taken = 0, reads = 0;
    while (time(NULL) < end) {
        begin_anew();
        stop();
        size_t len = save(state);
        memcpy(changed, state, len);
        bool is_plain = below(4), is_same = loads == 0;
        if (is_plain) len = as_virtiofsds(changed, len);
        size_t before = len;
        for (uint64_t k = loads ? 1 + below(3) : 0; k > 0; k--) len = change(changed, len);
        if (!is_plain) is_same = len == before && !memcmp(changed, state, len);
        bool is_taken = load(changed, len);
        if (is_same && !is_taken) die("its own state is refused");
        if (!is_same && !is_plain && is_taken) die("a state that is damaged is taken");
        loads++, taken += is_taken;
        front_start_ring(&front, 1, front.rings[1].offered);
        reads += look_about();
        stop();
    }
    printf("state: %u streams, %u taken, %u reads within the directory\n", loads, taken, reads);
}

static void full(void) {
    struct {
        uint64_t padding, guest, len, user, offset;
    } region = {0, 1ull << 36, 1 << 20, 1ull << 46, 0};
    struct fuse_open_in in = {.flags = O_RDONLY};
    static uint8_t state[MOST];
    unsigned count = 0;
    int fd = memfd_create("more", MFD_CLOEXEC);
    if (fd < 0 || ftruncate(fd, 1 << 20)) die("no memory");
    begin_anew();
    for (uint64_t node = look_up(&front, ROOT, "file"); count < 100000; count++) {
        front_ask(&front, 1, FUSE_OPEN, node, &in, sizeof in, &reply);
        if (reply.error) break;
    }
    if (reply.error != ENFILE) die("the last OPEN: %s", strerror(reply.error));
    if (front_tell(&front, ADD_MEM_REG, &region, sizeof region, &fd, 1)) die("no memory comes");
    stop();
    size_t len = save(state);
    if (front_tell(&front, RESET_DEVICE, NULL, 0, NULL, 0) || !load(state, len))
        die("its own state is refused");
    front_start_ring(&front, 1, front.rings[1].offered);
    if (look_about() == 0) die("no file is open any more");
    stop();
    printf("state: with %u files open none more; memory came, and %zu bytes of state went out and "
           "in\n",
           count, len);
}

static void lost(void) {
    struct {
        struct fuse_create_in in;
        char name[5];
    } create = {{.flags = O_RDWR | O_CREAT, .mode = 0600}, "lost"};
    static uint8_t state[MOST];
    begin_anew();
    front_ask(&front, 1, FUSE_CREATE, ROOT, &create, sizeof create.in + sizeof create.name, &reply);
    if (reply.error) die("CREATE: %s", strerror(reply.error));
    front_ask(&front, 1, FUSE_UNLINK, ROOT, create.name, sizeof create.name, &reply);
    if (reply.error) die("UNLINK: %s", strerror(reply.error));
    stop();
    size_t len = save(state);
    if (front_tell(&front, RESET_DEVICE, NULL, 0, NULL, 0)) die("no reset");
    printf("state: a file that is held and removed: %s\n", load(state, len) ? "taken" : "refused");
}

static void cut(void) {
    static uint8_t state[MOST];
    begin_anew();
    stop();
    size_t len = save(state);
    for (size_t left = 0; left < len; left++)
        if (load(state, left)) die("%zu bytes of %zu are taken", left, len);
    if (!load(state, len)) die("its own state is refused");
    printf("state: none of %zu bytes that is cut short is taken\n", len);
}

/* A state in which one place of it has another byte isn't taken, nor is one that is there twice. */
static void turned(void) {
    static uint8_t state[2 * MOST];
    unsigned taken = 0;
    begin_anew();
    stop();
    size_t len = save(state);
    for (unsigned bit = 0; bit < 8; bit++)
        for (size_t k = 0; k < len; k++) {
            state[k] ^= (uint8_t)(1 << bit);
            taken += load(state, len);
            state[k] ^= (uint8_t)(1 << bit);
        }
    if (taken > 0) die("%u of %zu states with another bit are taken", taken, 8 * len);
    memcpy(state + len, state, len);
    if (load(state, 2 * len)) die("a state that is there twice is taken");
    if (!load(state, len)) die("its own state is refused");
    size_t plain = as_virtiofsds(state, len);
    memcpy(state + plain, state, plain);
    if (load(state, 2 * plain)) die("a state of virtiofsd's that is there twice is taken");
    if (!load(state, plain)) die("a state of virtiofsd's is refused");
    printf("state: none of %zu states with another bit is taken, nor one that is there twice\n",
           8 * len);
}

/* Another process keeps the pipe of a state, and sends nothing: the daemon ends with its front-end
 * all the same. */
static void idle(void) {
    begin_anew();
    stop();
    int pipe = begin_transfer(LOAD);
    front_say(&front, CHECK_DEVICE_STATE, NULL, 0);
    usleep(300000);
    alarm(30);
    front_leave(&front);
    close(pipe);
    printf("state: the daemon ends with a front-end that waits for a state\n");
}

int main(int argc, char **argv) {
    static const char *const few[] = {"--rlimit-nofile", "1600", NULL};
    static const char *const writeback[] = {"--writeback", NULL};
    if (argc < 4) die("usage: state DAEMON DIR SECONDS|full|lost|cut|turned|flags|writeback|idle");
    bool is_full = !strcmp(argv[3], "full"), writes_back = !strcmp(argv[3], "writeback");
    time_t now = time(NULL);
    chance_begin((uint64_t)now * 0x9e3779b97f4a7c15u | 1);
    signal(SIGPIPE, SIG_IGN);
    front_begin(&front, argv[1], argv[2], is_full ? few : writes_back ? writeback : NULL);
    front_set_up(&front);
    front_start_ring(&front, 1, 0);
    if (!strcmp(argv[3], "idle")) return idle(), 0;
    if (is_full)
        full();
    else if (!strcmp(argv[3], "lost"))
        lost();
    else if (!strcmp(argv[3], "cut"))
        cut();
    else if (!strcmp(argv[3], "turned"))
        turned();
    else if (writes_back || !strcmp(argv[3], "flags")) {
        begin_session(&front);
        move_flags(&front, writes_back, save, load);
        stop();
    } else
        hostile_streams(now + (time_t)strtoul(argv[3], NULL, 10));
    begin_anew();
    front_leave(&front);
    return 0;
}
