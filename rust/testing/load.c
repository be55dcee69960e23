/* How long a migration's state is loaded, and the slowest look-up before: load DAEMON DIR COUNT
 * [OPTION..]. A guest looks up COUNT files of DIR, made here, and opens every tenth. Its daemon's
 * state goes to another daemon. Prints the milliseconds of the slowest look-up, and of the load,
 * from SET_DEVICE_STATE_FD to the reply of CHECK_DEVICE_STATE; and of the processor time of that,
 * in ticks of 10. */
#define _GNU_SOURCE
#include "front.h"
#include <errno.h>
#include <fcntl.h>
#include <linux/fuse.h>
#include <signal.h>
#include <stdio.h>
#include <stdlib.h>
#include <string.h>
#include <sys/stat.h>
#include <time.h>
#include <unistd.h>

enum {
    SET_DEVICE_STATE_FD = 42,
    CHECK_DEVICE_STATE,
    SAVE = 0,
    LOAD = 1,
    ROOT = 1,
    IN_FOLDER = 100,
    MOST = 1 << 25
};

static struct front source, target;
static struct reply reply;
static uint8_t state[MOST];

static double now(void) {
    struct timespec t;
    clock_gettime(CLOCK_MONOTONIC, &t);
    return (double)t.tv_sec * 1e3 + (double)t.tv_nsec / 1e6;
}

static int begin_transfer(struct front *front, uint32_t direction) {
    uint32_t how[2] = {direction, 0};
    int ends[2], theirs = direction == SAVE;
    if (pipe2(ends, O_CLOEXEC)) die("no pipe");
    if (front_tell(front, SET_DEVICE_STATE_FD, how, sizeof how, &ends[theirs], 1) & 0xff)
        die("no transfer");
    close(ends[theirs]);
    return ends[!theirs];
}

static size_t save(struct front *front) {
    int pipe = begin_transfer(front, SAVE);
    size_t len = 0;
    for (ssize_t count; (count = read(pipe, state + len, MOST - len)) > 0;) len += (size_t)count;
    close(pipe);
    if (front_tell(front, CHECK_DEVICE_STATE, NULL, 0, NULL, 0)) die("the state isn't saved");
    return len;
}

static void load(struct front *front, const uint8_t *bytes, size_t len) {
    int pipe = begin_transfer(front, LOAD);
    for (ssize_t count; len > 0 && (count = write(pipe, bytes, len)) > 0; len -= (size_t)count)
        bytes += count;
    close(pipe);
    if (front_tell(front, CHECK_DEVICE_STATE, NULL, 0, NULL, 0)) die("the state isn't loaded");
}

/* Makes the files, some in each folder. */
static void make_files(const char *dir, unsigned count) {
    char path[300];
    for (unsigned k = 0; k < count; k++) {
        if (k % IN_FOLDER == 0) {
            snprintf(path, sizeof path, "%s/folder%u", dir, k / IN_FOLDER);
            if (mkdir(path, 0777) && errno != EEXIST) die("%s: %s", path, strerror(errno));
        }
        snprintf(path, sizeof path, "%s/folder%u/file%u", dir, k / IN_FOLDER, k);
        int fd = open(path, O_WRONLY | O_CREAT, 0666);
        if (fd < 0) die("%s: %s", path, strerror(errno));
        close(fd);
    }
}

/* Looks all of them up; returns the last one's node. */
static uint64_t look_up_files(unsigned count) {
    char name[32];
    uint64_t folder = ROOT, node = ROOT;
    double slowest = 0;
    for (unsigned k = 0; k < count; k++) {
        double before = now();
        if (k % IN_FOLDER == 0) {
            snprintf(name, sizeof name, "folder%u", k / IN_FOLDER);
            folder = look_up(&source, ROOT, name);
        }
        snprintf(name, sizeof name, "file%u", k);
        node = look_up(&source, folder, name);
        double time = now() - before;
        slowest = time > slowest ? time : slowest;
        if (k % 10 == 0) open_node(&source, node, O_RDONLY);
    }
    printf("%.1f\tthe slowest LOOKUP of %u\n", slowest, count);
    return node;
}

int main(int argc, char **argv) {
    struct fuse_getattr_in in = {0};
    if (argc < 4) die("usage: load DAEMON DIR COUNT [OPTION..]");
    unsigned count = (unsigned)strtoul(argv[3], NULL, 10);
    const char *const *options = (const char *const *)(uintptr_t)(argv + 4);
    signal(SIGPIPE, SIG_IGN);
    make_files(argv[2], count);
    front_begin(&source, argv[1], argv[2], options);
    front_set_up(&source);
    front_start_ring(&source, 1, 0);
    begin_session(&source);
    uint64_t node = look_up_files(count);
    uint16_t position = front_stop_ring(&source, 1);
    size_t len = save(&source);
    front_begin(&target, argv[1], argv[2], options);
    front_set_up(&target);
    double processor = front_processor(&target);
    double before = now();
    load(&target, state, len);
    printf("%.1f\ta load of %u nodes\n", now() - before, count);
    printf("%.0f\tits processor time, of %u nodes\n", front_processor(&target) - processor, count);
    front_start_ring(&target, 1, 0);
    front_ask(&target, 1, FUSE_GETATTR, node, &in, sizeof in, &reply);
    if (reply.error || position != source.rings[1].offered) die("the last file: %d", reply.error);
    front_leave(&source);
    front_leave(&target);
    return 0;
}
