/* Parts of `replaced`: daemons that are refused, killed, that race and lie. */
#define _GNU_SOURCE
#include "replaced.h"
#include <errno.h>
#include <fcntl.h>
#include <linux/fuse.h>
#include <signal.h>
#include <stdio.h>
#include <stdlib.h>
#include <string.h>
#include <sys/mman.h>
#include <sys/socket.h>
#include <sys/stat.h>
#include <sys/un.h>
#include <unistd.h>

/* New daemons that must be refused, each with words of its reason. */
void refusals(struct replaced *r) {
    static const struct {
        const char *option, *value, *reason;
    } wrong[] = {
        {"--readonly", NULL, "its option --readonly is on"},
        {"--cache=never", NULL, "its option --cache is never"},
        {"--writeback", NULL, "its option --writeback is on"},
        {"--posix-acl", NULL, "its option --posix-acl is on"},
        {"--num-request-queues", "1", "its option --num-request-queues is 1"},
        {"--sandbox=none", NULL, "its option --sandbox is none"},
        {"--translate-uid", "map:0:1000:1", "its option --translate-uid"},
        {"--shared-dir", "/usr", "it shares another directory"},
        {"--shared-dir", "/nowhere", "does not exist"},
        {"--control-socket", "/tmp/other", "it is that of the old daemon"},
        {"--rlimit-nofile", "100", "file descriptors"},
    };
    stream_begin(&r->stream, r->front, 4, false);
    for (size_t k = 0; k < sizeof wrong / sizeof *wrong; k++) {
        const char *more[] = {wrong[k].option, wrong[k].value, NULL};
        if (replace(r, more)) die("%s is taken over", wrong[k].option);
        if (!log_has(r, wrong[k].reason)) {
            show_log(r);
            die("%s: not the reason: %s", wrong[k].option, wrong[k].reason);
        }
        check_messages(r);
    }
    const char *free_ones[] = {"--log-level=debug", "--migration-mode=file-handles",
                               "--seccomp=log", NULL};
    if (!replace(r, free_ones)) die("options that nobody notices are refused");
    stream_end(&r->stream);
    printf("%d refused, each with its reason\n", r->refused);
}

/* New daemons that are killed at any moment: the old or the new one continues to serve. */
void kills(struct replaced *r, int count) {
    int killed = 0;
    stream_begin(&r->stream, r->front, 8, false);
    for (int k = 0; k < count; k++) {
        pid_t new = take_over(r, r->control, NULL);
        bool ended = false;
        for (int left = 2 * (k * 7919 % 1000) / 10; left > 0 && !ended; left--) {
            usleep(500);
            ended = wait_for(r->serving, 0) == 0;
        }
        if (ended || wait_for(r->serving, 0) == 0) {
            r->serving = new;
            r->count++;
            continue;
        }
        /* the process in the sandbox, which is its child, and it */
        kill(-new, SIGKILL);
        if (wait_for(new, 5000) < 0) die("it isn't killed");
        if (wait_for(r->serving, 300) == 0) {
            /* Killed right after it took over: the guest has no daemon any more. */
            printf("%d killed, the last when it served; %d replaced\n", killed + 1, r->count);
            fflush(stdout);
            _exit(0);
        }
        killed++;
    }
    stream_end(&r->stream);
    printf("%d killed, %d replaced, %lu requests\n", killed, r->count,
           (unsigned long)atomic_load(&r->stream.requests));
}

/* Two new daemons at once: one serves, and the other ends, or serves after it. */
void race(struct replaced *r, int count) {
    int both = 0;
    stream_begin(&r->stream, r->front, 8, false);
    for (int k = 0; k < count; k++) {
        pid_t new[2] = {take_over(r, r->control, NULL), take_over(r, r->control, NULL)};
        bool is_there[2] = {true, true};
        int left = 3;
        for (int ms = 0; left > 1 && ms < 30000; ms++) {
            if (r->serving && wait_for(r->serving, 0) >= 0) r->serving = 0, left--;
            for (int n = 0; n < 2; n++) {
                int status = is_there[n] ? wait_for(new[n], 0) : -1;
                if (status > 1) die("a new daemon ended with %d", status);
                if (status >= 0) is_there[n] = false, left--, both += status == 0;
            }
            pause_ms(1);
        }
        if (left != 1) die("%d daemons are left", left);
        if (!r->serving) r->serving = is_there[0] ? new[0] : new[1], r->count++;
        check_messages(r);
    }
    stream_end(&r->stream);
    printf("%d races, %d replaced, %d of them twice\n", count, r->count, both);
}

static int call_control(const struct replaced *r) {
    struct sockaddr_un address = {.sun_family = AF_UNIX};
    memcpy(address.sun_path, r->control, strlen(r->control));
    int fd = socket(AF_UNIX, SOCK_STREAM | SOCK_CLOEXEC, 0);
    if (connect(fd, (struct sockaddr *)&address, sizeof address)) die("no control socket");
    return fd;
}

/* The daemon turns away: the connection ends. */
static void must_end(int fd, const char *what) {
    struct timeval patience = {.tv_sec = 10};
    char bytes[4096];
    ssize_t len;
    setsockopt(fd, SOL_SOCKET, SO_RCVTIMEO, &patience, sizeof patience);
    while ((len = read(fd, bytes, sizeof bytes)) > 0) continue;
    if (len < 0 && errno != ECONNRESET) die("%s: it isn't turned away", what);
    close(fd);
}

static void say(int fd, const void *bytes, size_t len) {
    if (send(fd, bytes, len, MSG_NOSIGNAL) < 0 && errno != EPIPE && errno != ECONNRESET)
        die("nothing can be sent: %s", strerror(errno));
}

/* Strangers at the control socket. */
void liars(struct replaced *r, int count) {
    struct stat data;
    if (stat(r->control, &data) || (data.st_mode & 0777) != 0600) die("the socket's mode");
    stream_begin(&r->stream, r->front, 4, false);
    int silent[12];
    for (size_t k = 0; k < 12; k++) silent[k] = call_control(r);
    for (int k = 0; k < count; k++) {
        static char long_one[1 << 17];
        int fd = call_control(r);
        say(fd, "GET / HTTP/1.1\r\n\r\n", 18);
        must_end(fd, "a stranger");
        fd = call_control(r);
        say(fd, "PKREADY1\xff\xff\xff\x7f", 12);
        must_end(fd, "a long record");
        fd = call_control(r);
        say(fd, "PKREADY1\x04\0\0\0abcd", 16);
        must_end(fd, "no record");
        fd = call_control(r);
        memset(long_one, 'x', sizeof long_one);
        say(fd, "PKREADY1\0\0\1\0", 12);
        say(fd, long_one, sizeof long_one);
        must_end(fd, "bytes after a record");
        fd = call_control(r);
        for (size_t at = 0; at < 10; at++) say(fd, "PKREADY1\x10\0" + at, 1), pause_ms(1);
        close(fd); /* in the middle */
    }
    if (!replace_soon(r)) die("strangers keep a daemon from taking over");
    for (size_t k = 0; k < 12; k++) close(silent[k]);
    /* another user may not connect */
    pid_t other = fork();
    if (other == 0) {
        struct sockaddr_un address = {.sun_family = AF_UNIX};
        memcpy(address.sun_path, r->control, strlen(r->control));
        if (chmod(r->folder, 0755) || setuid(65534)) _exit(3);
        int fd = socket(AF_UNIX, SOCK_STREAM, 0);
        _exit(connect(fd, (struct sockaddr *)&address, sizeof address) ? 0 : 1);
    }
    if (wait_for(other, 5000)) die("another user connects");
    /* nor one that inherits a connection */
    int fd = call_control(r);
    other = fork();
    if (other == 0) {
        if (setuid(65534)) _exit(3);
        say(fd, "PKREADY1\x0c\0\0\0" "9.9.9\n1 1\na", 24);
        _exit(0);
    }
    if (wait_for(other, 5000)) die("no other user");
    must_end(fd, "another user's record");
    stream_end(&r->stream);
    printf("%d times strangers were turned away\n", 5 * count + 2);
}

/* A call that the host holds: nothing is replaced, and the guest goes on. */
void held(struct replaced *r) {
    char path[300];
    snprintf(path, sizeof path, "%s/leased", r->front->dir);
    int lease = open(path, O_CREAT | O_RDWR, 0644);
    uint64_t node = look_up(r->front, 1, "leased");
    if (lease < 0 || fcntl(lease, F_SETSIG, SIGURG) || fcntl(lease, F_SETLEASE, F_WRLCK))
        die("no lease: %s", strerror(errno));
    struct fuse_open_in in = {.flags = O_RDWR};
    front_send(r->front, 2, FUSE_OPEN, node, &in, sizeof in, 16 + 4096);
    wait_for_opening(lease);
    if (replace(r, NULL)) die("a daemon with a held call is replaced");
    if (!log_has(r, "the host holds a call of the guest's: queue 2")) die("not the reason");
    check_messages(r);
    look_up(r->front, 1, "leased"); /* the other queue goes on */
    if (fcntl(lease, F_SETLEASE, F_UNLCK)) die("the lease stays");
    static struct reply reply;
    if (!front_wait(r->front, 2, 20000)) die("the held call isn't answered");
    front_read(r->front, 2, &reply);
    if (reply.error) die("the held call: %s", strerror(reply.error));
    if (!replace_soon(r)) die("it isn't replaced afterwards");
    close(lease);
    printf("a held call, refused once\n");
}

static int error_of(struct replaced *r, uint64_t node) {
    static struct reply reply;
    struct fuse_getattr_in in = {0};
    front_ask(r->front, 1, FUSE_GETATTR, node, &in, sizeof in, &reply);
    return reply.error;
}

/* The host removes a file whose node the guest holds. A node with a file handle is gone for good,
 * so the daemon is replaced without it. A descriptor keeps the file: the new daemon finds it by a
 * file handle, and by paths it doesn't, so none takes over until the guest forgets it. */
void gone(struct replaced *r, bool has_handles, bool moves_handles) {
    char path[300];
    snprintf(path, sizeof path, "%s/gone", r->front->dir);
    int fd = open(path, O_CREAT | O_WRONLY, 0644);
    uint64_t node = look_up(r->front, 1, "gone");
    if (fd < 0 || close(fd) || unlink(path)) die("no file: %s", strerror(errno));
    if (error_of(r, node) != (has_handles ? ESTALE : 0)) die("a removed file, before");
    bool is_movable = has_handles || moves_handles;
    bool is_replaced = is_movable ? replace_soon(r) : replace(r, NULL);
    if (is_replaced != is_movable) die("it is replaced, or not");
    if (!is_replaced && !log_has(r, "1 files that the guest holds have no path any more"))
        show_log(r), die("not the reason");
    if (error_of(r, node) != (has_handles ? EBADF : 0)) die("a removed file, after");
    struct fuse_forget_in once = {.nlookup = 1};
    front_send(r->front, 1, FUSE_FORGET, node, &once, sizeof once, 0);
    if (!front_wait(r->front, 1, 20000)) die("FORGET doesn't come back");
    if (!replace_soon(r)) die("it isn't replaced after FORGET");
    if (error_of(r, node) != EBADF) die("a node that is forgotten");
    look_up(r->front, 1, "node-0");
    printf("a removed file: %s\n", is_replaced ? "replaced" : "refused until it was forgotten");
}

enum { LOG_LEN = 1 << 18, SET_DEVICE_STATE_FD = 42, CHECK_DEVICE_STATE = 43 };

static bool is_marked(const uint8_t *log, uint64_t guest) {
    return log[guest / PAGE / 8] >> guest / PAGE % 8 & 1;
}

static void must_mark(struct replaced *r, uint8_t *log) {
    memset(log, 0, LOG_LEN);
    pause_ms(300);
    for (size_t ring = 1; ring < RINGS; ring++)
        if (!is_marked(log, used_at(ring)) || !is_marked(log, room_at(ring)))
            die("ring %zu isn't logged", ring);
    if (is_marked(log, request_at(1))) die("a page that nobody wrote is logged");
    check_messages(r);
}

/* The guest migrates: its pages are logged by each daemon, and the last one saves its state. While
 * it does so, none is replaced. */
void logged(struct replaced *r) {
    int fd = memfd_create("log", MFD_CLOEXEC), state = memfd_create("state", MFD_CLOEXEC);
    uint64_t told[2] = {LOG_LEN, 0}, features = r->front->features | 1ull << 26;
    uint32_t save[2] = {0, 0};
    if (fd < 0 || state < 0 || ftruncate(fd, LOG_LEN)) die("no log");
    uint8_t *log = mmap(NULL, LOG_LEN, PROT_READ | PROT_WRITE, MAP_SHARED, fd, 0);
    stream_begin(&r->stream, r->front, 4, false);
    pthread_mutex_lock(&line);
    if (front_tell(r->front, SET_LOG_BASE, told, sizeof told, &fd, 1)) die("no log");
    if (front_tell(r->front, SET_FEATURES, &features, sizeof features, NULL, 0)) die("no log");
    pthread_mutex_unlock(&line);
    must_mark(r, log);
    for (int k = 0; k < 5; k++) {
        if (!replace_soon(r)) die("a migrating guest's daemon isn't replaced");
        must_mark(r, log);
    }
    const char *more[] = {"--readonly", NULL};
    if (replace(r, more)) die("--readonly is taken over");
    must_mark(r, log);
    stream_end(&r->stream);
    for (size_t ring = 0; ring < RINGS; ring++) stop_ring(ring);
    pthread_mutex_lock(&line);
    if (front_tell(r->front, SET_DEVICE_STATE_FD, save, sizeof save, &state, 1) & 0xff)
        die("no state");
    pthread_mutex_unlock(&line);
    if (replace(r, NULL)) die("it is replaced while a state is saved");
    if (!log_has(r, "a state is being saved or loaded")) show_log(r), die("not the reason");
    if (front_number(r->front, CHECK_DEVICE_STATE)) die("the state isn't saved");
    if (lseek(state, 0, SEEK_END) < 100) die("the state is short");
    if (!replace_soon(r)) die("it isn't replaced after that, with its rings stopped");
    for (size_t ring = 0; ring < RINGS; ring++)
        start_ring(ring, r->front->rings[ring].offered);
    look_up(r->front, 1, "node-0");
    printf("%d replaced while pages are logged\n", r->count);
}
