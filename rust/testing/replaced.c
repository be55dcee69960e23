/* A daemon that is replaced while a driver asks: `replaced DAEMON DIRECTORY PART [COUNT]`, with
 * options of all daemons in OPTIONS of the environment, split at spaces; with IOMMU=1 behind an
 * IOMMU. */
#define _GNU_SOURCE
#include "replaced.h"
#include <errno.h>
#include <fcntl.h>
#include <linux/fuse.h>
#include <signal.h>
#include <stdio.h>
#include <stdlib.h>
#include <string.h>
#include <sys/socket.h>
#include <sys/stat.h>
#include <sys/un.h>
#include <sys/wait.h>
#include <unistd.h>

enum { GET_FEATURES = 1, SET_VRING_CALL = 13, GET_QUEUE_NUM = 17, MOST_OPTIONS = 32 };

void pause_ms(int milliseconds) { usleep((useconds_t)milliseconds * 1000); }

/* ------------------------------------------------------------- daemons */

void replaced_begin(struct replaced *r, const char *server, const char *dir,
                    const char *const *options, size_t nodes) {
    static const char *all[MOST_OPTIONS];
    const char *temporary = getenv("TMPDIR");
    snprintf(r->folder, sizeof r->folder, "%s/replaced_XXXXXX", temporary ? temporary : "/tmp");
    if (!mkdtemp(r->folder)) die("no folder");
    snprintf(r->control, sizeof r->control, "%s/control", r->folder);
    snprintf(r->log, sizeof r->log, "%s/log", r->folder);
    size_t k = 0;
    all[k++] = "--control-socket";
    all[k++] = r->control;
    all[k++] = "--log-level=info";
    for (size_t n = 0; options[n] && k < MOST_OPTIONS - 1; n++) all[k++] = options[n];
    r->options = all;
    const char *iommu = getenv("IOMMU");
    r->front = &front;
    front_begin(&front, server, dir, all);
    r->serving = front.pid;
    if (iommu && !strcmp(iommu, "1")) {
        front.features |= 1ull << 33;
        front.has_iommu = true;
        front.shift = SHIFT;
    }
    front_set_up(&front);
    if (front.has_iommu) open_channel();
    for (size_t ring = 0; ring < RINGS; ring++) start_ring(ring, 0);
    begin_session(&front);
    for (size_t n = 0; n < nodes; n++) {
        char path[300];
        snprintf(path, sizeof path, "%s/node-%zu", dir, n);
        int fd = open(path, O_CREAT | O_WRONLY, 0644);
        if (fd < 0) die("%s: %s", path, strerror(errno));
        close(fd);
        look_up(r->front, 1, strrchr(path, '/') + 1);
    }
}

int wait_for(pid_t pid, int milliseconds) {
    int status;
    for (int k = 0; k <= milliseconds; k++) {
        pid_t got = waitpid(pid, &status, WNOHANG);
        if (got == pid) return WIFEXITED(status) ? WEXITSTATUS(status) : 128 + WTERMSIG(status);
        if (got < 0) die("waitpid: %s", strerror(errno));
        pause_ms(1);
    }
    return -1;
}

pid_t take_over(struct replaced *r, const char *control, const char *const *more) {
    const char *threads = getenv("THREADS");
    const char *argv[2 * MOST_OPTIONS] = {r->front->server,
                                          "--take-over",
                                          control,
                                          "--shared-dir",
                                          r->front->dir,
                                          "--num-request-queues",
                                          "2",
                                          "--xattr",
                                          "--thread-pool-size",
                                          threads ? threads : "0"};
    size_t count = 10;
    for (size_t k = 2; r->options[k]; k++) argv[count++] = r->options[k];
    for (size_t k = 0; more && more[k]; k++) argv[count++] = more[k];
    pid_t pid = fork();
    if (pid == 0) {
        int log = open(r->log, O_CREAT | O_TRUNC | O_WRONLY | O_APPEND, 0644);
        dup2(log, 2);
        setpgid(0, 0);
        execv(argv[0], (char *const *)(uintptr_t)argv);
        _exit(127);
    }
    setpgid(pid, pid); /* so it and its children can be killed from here on */
    return pid;
}

bool log_has(const struct replaced *r, const char *words) {
    char text[1 << 14] = "";
    int fd = open(r->log, O_RDONLY);
    ssize_t len = read(fd, text, sizeof text - 1);
    close(fd);
    return len > 0 && strstr(text, words);
}

void show_log(const struct replaced *r) {
    char text[1 << 14];
    int fd = open(r->log, O_RDONLY);
    ssize_t len = read(fd, text, sizeof text);
    if (len > 0 && write(2, text, (size_t)len) < 0) die("no standard error");
    close(fd);
}

bool replace(struct replaced *r, const char *const *more) {
    pid_t new = take_over(r, r->control, more);
    for (int k = 0; k < 60000; k++) {
        int status = wait_for(r->serving, 0);
        if (status == 0) {
            r->serving = new;
            r->count++;
            return true;
        }
        if (status > 0) die("the daemon that served ended with %d", status);
        status = wait_for(new, 0);
        if (status >= 0) {
            if (status != 1) die("the new daemon ended with %d", status);
            r->refused++;
            return false;
        }
        pause_ms(1);
    }
    show_log(r);
    die("the new daemon neither serves nor ends");
}

bool replace_soon(struct replaced *r) {
    for (int k = 0; k < 3; k++) {
        if (replace(r, NULL)) return true;
        show_log(r);
    }
    return false;
}

void check_messages(struct replaced *r) {
    struct front *front = r->front;
    uint64_t word = 1;
    pthread_mutex_lock(&line);
    if ((front_number(front, GET_FEATURES) & front->features) != front->features)
        die("other features");
    if (front_number(front, GET_QUEUE_NUM) != RINGS) die("another number of queues");
    if (front_tell(front, SET_VRING_CALL, &word, sizeof word, &front->rings[1].call, 1))
        die("a call descriptor is refused");
    pthread_mutex_unlock(&line);
    if (front->has_iommu) flush(); /* so pages are missed again */
}

void replaced_end(struct replaced *r) {
    r->front->pid = r->serving;
    if (r->front->has_iommu) close_channel();
    front_leave(r->front);
    if (failed) die("an answer of the back-end's is wrong");
    unlink(r->control);
    unlink(r->log);
    rmdir(r->folder);
}

/* ------------------------------------------------------------- parts */

static int by_value(const void *one, const void *other) {
    double a = *(const double *)one, b = *(const double *)other;
    return (a > b) - (a < b);
}

/* So many replacements under load. At most a tenth may be refused, since the host may take longer
 * for a call than the guest is kept waiting. */
static void times(struct replaced *r, int count, size_t slots, bool unlinks_open) {
    double *gaps = calloc((size_t)count, sizeof *gaps);
    size_t done = 0;
    stream_begin(&r->stream, r->front, slots, unlinks_open);
    if (!count) pause_ms(1000);
    for (int k = 0; k < count; k++) {
        for (int n = 0; n < 3; n++) {
            pause_ms(10 + 2 * (k % 10));
            if (r->front->has_iommu) flush();
        }
        stream_gap(&r->stream);
        if (replace(r, NULL)) {
            pause_ms(5);
            gaps[done++] = stream_gap(&r->stream);
        } else {
            show_log(r);
        }
        check_messages(r);
    }
    stream_end(&r->stream);
    qsort(gaps, done, sizeof *gaps, by_value);
    printf("%d of %d replaced, %lu requests; gap %.1f ms (%.1f to %.1f)\n", r->count, count,
           (unsigned long)atomic_load(&r->stream.requests), done ? gaps[done / 2] : 0,
           done ? gaps[0] : 0, done ? gaps[done - 1] : 0);
    if (r->refused * 10 > count) die("too many were refused");
    free(gaps);
}

int main(int argc, char **argv) {
    static struct replaced r;
    static const char *options[MOST_OPTIONS];
    if (argc < 4) die("replaced DAEMON DIRECTORY PART [COUNT]");
    const char *part = argv[3], *words = getenv("OPTIONS"), *nodes = getenv("NODES");
    int count = argc > 4 ? atoi(argv[4]) : 10;
    char *text = strdup(words ? words : ""), *word = strtok(text, " ");
    for (size_t k = 0; word && k < MOST_OPTIONS - 8; word = strtok(NULL, " ")) options[k++] = word;
    bool by_handles = words && strstr(words, "--migration-mode=file-handles");
    signal(SIGPIPE, SIG_IGN);
    signal(SIGURG, SIG_IGN);
    replaced_begin(&r, argv[1], argv[2], options, nodes ? (size_t)atol(nodes) : 100);
    if (!strcmp(part, "times"))
        times(&r, count, SLOTS, by_handles);
    else if (!strcmp(part, "refusals"))
        refusals(&r);
    else if (!strcmp(part, "kills"))
        kills(&r, count);
    else if (!strcmp(part, "race"))
        race(&r, count);
    else if (!strcmp(part, "liars"))
        liars(&r, count);
    else if (!strcmp(part, "held"))
        held(&r);
    else if (!strcmp(part, "gone"))
        gone(&r, words && strstr(words, "--inode-file-handles=mandatory"), by_handles);
    else if (!strcmp(part, "logged"))
        logged(&r);
    else if (!strcmp(part, "given-up"))
        given_up(&r, count);
    else if (!strcmp(part, "between"))
        try_between(&r, argv[1], argv[2], options, argc > 4 ? (unsigned)count : 1);
    else
        die("no such part: %s", part);
    replaced_end(&r);
    free(text);
    return 0;
}
