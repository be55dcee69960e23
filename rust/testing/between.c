/* Between an old daemon and a new one: passes their messages on, and at one of them kills either,
 * is silent, cuts the message, or changes it. */
#define _GNU_SOURCE
#include "replaced.h"
#include <errno.h>
#include <poll.h>
#include <signal.h>
#include <stdio.h>
#include <stdlib.h>
#include <string.h>
#include <sys/socket.h>
#include <sys/un.h>
#include <unistd.h>

enum { MESSAGE_MAX = 1 << 17, FDS_MAX = 16, TAKE = 0x504b0001, TAKEN, GO };
enum action { PASS, KILL_NEW, KILL_OLD, SILENCE, CUT, CHANGE };
enum end { OLD_SERVES, NEW_SERVES, NONE_SERVES };

/* A message, as it was received at once. */
struct message {
    size_t len, fd_count;
    int fds[FDS_MAX];
    uint8_t bytes[MESSAGE_MAX];
};

struct between {
    struct replaced *r;
    int old, new;
    pid_t pid; /* the new daemon */
    unsigned step, at;
    enum action action;
    bool took;     /* TAKE was passed on */
    bool is_over;  /* the action was done */
};

static void address_of(struct sockaddr_un *address, const char *path) {
    *address = (struct sockaddr_un){.sun_family = AF_UNIX};
    memcpy(address->sun_path, path, strlen(path));
}

static bool receive(int from, struct message *message) {
    union {
        struct cmsghdr align;
        char bytes[CMSG_SPACE(sizeof message->fds)];
    } control;
    struct iovec part = {message->bytes, sizeof message->bytes};
    struct msghdr head = {.msg_iov = &part,
                          .msg_iovlen = 1,
                          .msg_control = control.bytes,
                          .msg_controllen = sizeof control.bytes};
    ssize_t len = recvmsg(from, &head, MSG_CMSG_CLOEXEC);
    message->fd_count = 0;
    if (len <= 0) return false;
    message->len = (size_t)len;
    for (struct cmsghdr *c = CMSG_FIRSTHDR(&head); c; c = CMSG_NXTHDR(&head, c))
        if (c->cmsg_type == SCM_RIGHTS) {
            message->fd_count = (c->cmsg_len - CMSG_LEN(0)) / sizeof(int);
            memcpy(message->fds, CMSG_DATA(c), message->fd_count * sizeof(int));
        }
    return true;
}

static void pass(int to, const struct message *message, size_t len) {
    union {
        struct cmsghdr align;
        char bytes[CMSG_SPACE(sizeof message->fds)];
    } control = {.bytes = {0}};
    struct iovec part = {(void *)(uintptr_t)message->bytes, len};
    struct msghdr head = {.msg_iov = &part, .msg_iovlen = 1};
    if (message->fd_count) {
        head.msg_control = control.bytes;
        head.msg_controllen = CMSG_SPACE(message->fd_count * sizeof(int));
        struct cmsghdr *c = CMSG_FIRSTHDR(&head);
        c->cmsg_level = SOL_SOCKET;
        c->cmsg_type = SCM_RIGHTS;
        c->cmsg_len = CMSG_LEN(message->fd_count * sizeof(int));
        memcpy(CMSG_DATA(c), message->fds, message->fd_count * sizeof(int));
    }
    if (sendmsg(to, &head, MSG_NOSIGNAL) < 0 && errno != EPIPE && errno != ECONNRESET)
        die("a message isn't passed on: %s", strerror(errno));
}

static uint32_t request_of(const struct message *message) {
    uint32_t request = 0;
    if (message->len >= 4) memcpy(&request, message->bytes, 4);
    return request;
}

static void kill_all(pid_t pid) {
    kill(-pid, SIGKILL);
    if (wait_for(pid, 10000) < 0) die("a daemon isn't killed");
}

/* Another number in the body of a reply. */
static void change(struct message *message) {
    uint64_t word;
    if (message->len < 20) return;
    memcpy(&word, message->bytes + message->len - 8, sizeof word);
    word = word ? 0 : 1;
    memcpy(message->bytes + message->len - 8, &word, sizeof word);
}

/* Does what is to be done at a message. */
static void act(struct between *b, struct message *message, int to) {
    b->is_over = true;
    switch (b->action) {
    case KILL_NEW: kill_all(b->pid); break;
    case KILL_OLD: kill_all(b->r->serving); break;
    case CUT: pass(to, message, message->len / 2); break;
    case CHANGE:
        change(message);
        pass(to, message, message->len);
        break;
    case SILENCE:
    case PASS: break;
    }
}

/* Passes one message on. False at the end of a connection. */
static bool step(struct between *b, bool is_olds) {
    static struct message message;
    int from = is_olds ? b->old : b->new, to = is_olds ? b->new : b->old;
    if (!receive(from, &message)) return false;
    uint32_t request = request_of(&message);
    /* What kills the new daemon after GO kills the one that serves. Numbers of the old one, as
     * addresses of the guest's memory, can be anything. */
    bool acts = b->step == b->at && b->action != PASS && !(is_olds && b->action == CHANGE) &&
                !(is_olds && request == GO && b->action != KILL_OLD);
    if (acts)
        act(b, &message, to);
    else
        pass(to, &message, message.len);
    b->took |= is_olds && request == TAKE && !acts;
    for (size_t k = 0; k < message.fd_count; k++) close(message.fds[k]);
    b->step++;
    return !(acts && b->action != CHANGE && b->action != SILENCE);
}

static void begin_between(struct between *b) {
    struct sockaddr_un address;
    char path[100];
    snprintf(path, sizeof path, "%s/between", b->r->folder);
    unlink(path);
    address_of(&address, path);
    int listener = socket(AF_UNIX, SOCK_STREAM | SOCK_CLOEXEC, 0);
    if (bind(listener, (struct sockaddr *)&address, sizeof address) || listen(listener, 1))
        die("no socket between");
    b->pid = take_over(b->r, path, NULL);
    b->new = accept4(listener, NULL, NULL, SOCK_CLOEXEC);
    close(listener);
    unlink(path);
    address_of(&address, b->r->control);
    b->old = socket(AF_UNIX, SOCK_STREAM | SOCK_CLOEXEC, 0);
    if (b->new < 0 || connect(b->old, (struct sockaddr *)&address, sizeof address))
        die("no control socket: %s", strerror(errno));
}

/* Runs the messages, and says who serves. */
static enum end run(struct replaced *r, unsigned at, enum action action, unsigned *steps) {
    struct between b = {.r = r, .at = at, .action = action};
    begin_between(&b);
    for (bool goes_on = true; goes_on;) {
        struct pollfd events[2] = {{b.old, POLLIN, 0}, {b.new, POLLIN, 0}};
        bool is_silent = b.is_over && action == SILENCE;
        if (poll(events, is_silent ? 1 : 2, is_silent ? 3000 : 10000) <= 0) {
            if (!is_silent || b.step > 1) die("nothing more comes at step %u", b.step);
            break; /* a silent caller may stay */
        }
        /* the old one's first: it may be the reason why the new one ends */
        if (events[0].revents)
            goes_on = step(&b, true);
        else
            goes_on = step(&b, false);
    }
    close(b.old);
    close(b.new);
    if (steps) *steps = b.step;
    if (action == KILL_OLD && b.is_over) {
        if (b.took) return r->serving = b.pid, NEW_SERVES;
        if (wait_for(b.pid, 10000) != 1) die("step %u: the new one doesn't end", at);
        return NONE_SERVES;
    }
    if (action == KILL_NEW && b.is_over) return OLD_SERVES;
    for (int ms = 0; ms < 20000; ms += 1) {
        int status = wait_for(b.pid, 0);
        if (status == 1) return OLD_SERVES;
        if (status >= 0) die("step %u: the new one ended with %d", at, status);
        if (wait_for(r->serving, 0) == 0) return r->serving = b.pid, NEW_SERVES;
        pause_ms(1);
    }
    die("step %u: both are there", at);
}

/* The old one dies before TAKE: nobody serves, and nobody touches the guest's memory. */
static void check_silence(struct replaced *r) {
    enum { LEN = 2 * REGION_LEN };
    static uint8_t before[LEN];
    char byte;
    memcpy(before, r->front->memory, LEN);
    pause_ms(50);
    if (memcmp(before, r->front->memory, LEN)) die("the guest's memory changes");
    for (int ms = 0; recv(r->front->connection, &byte, 1, MSG_DONTWAIT) != 0; ms++) {
        if (ms == 5000) die("the front-end's socket is open yet");
        pause_ms(1);
    }
}

/* One action at each step, under load. */
static void at_each_step(struct replaced *r, enum action action, unsigned steps,
                         unsigned stride, const char *name) {
    unsigned ends[2] = {0, 0}, count = 0;
    double longest = 0;
    stream_begin(&r->stream, r->front, 4, false);
    for (unsigned at = stride - 1; at < steps; at += stride, count++) {
        stream_gap(&r->stream);
        ends[run(r, at, action, NULL)]++;
        check_messages(r);
        double gap = stream_gap(&r->stream);
        if (gap > longest) longest = gap;
    }
    stream_end(&r->stream);
    printf("%s at %u of %u steps: the old one continues %u times, the new one serves %u times; "
           "longest gap %.0f ms\n",
           name, count, steps, ends[OLD_SERVES], ends[NEW_SERVES], longest);
    if (longest > 3000) die("a guest waits for %.0f ms", longest);
}

/* New daemons that leave when the state is prepared, again and again, while the guest renames
 * files: each time the state is prepared once more. */
void given_up(struct replaced *r, int count) {
    stream_begin(&r->stream, r->front, SLOTS, false);
    for (int k = 0; k < count; k++) {
        if (run(r, 3, CUT, NULL) != OLD_SERVES) die("it is replaced");
        check_messages(r);
    }
    double gap = stream_gap(&r->stream);
    stream_end(&r->stream);
    if (!replace_soon(r)) die("it isn't replaced after that");
    printf("%d times given up, longest gap %.0f ms\n", count, gap);
}

void try_between(struct replaced *r, const char *server, const char *dir,
                 const char *const *options, unsigned stride) {
    unsigned steps = 0, served = 0, count = 0;
    stream_begin(&r->stream, r->front, 4, false);
    for (int tries = 0; run(r, 0, PASS, &steps) != NEW_SERVES; tries++)
        if (tries == 10) die("it isn't replaced");
    stream_end(&r->stream);
    at_each_step(r, KILL_NEW, steps, stride, "the new one is killed");
    at_each_step(r, CUT, steps, stride, "a message is cut");
    at_each_step(r, CHANGE, steps, stride, "a number is changed");
    at_each_step(r, SILENCE, steps, stride, "silence");
    /* the last one is TAKEN's or GO's */
    for (unsigned left = steps; left > 0; left -= left < stride ? left : stride, count++) {
        unsigned at = left - 1;
        enum end end = run(r, at, KILL_OLD, NULL);
        if (end == NEW_SERVES) {
            check_messages(r);
            look_up(r->front, 1, "file");
            served++;
            replaced_end(r);
        } else if (end == NONE_SERVES) {
            check_silence(r);
            close(r->front->connection);
            unlink(r->control);
        } else {
            die("step %u: the old one was killed, and serves", at);
        }
        replaced_begin(r, server, dir, options, 10);
    }
    printf("the old one is killed at %u of %u steps: the new one serves %u times\n", count, steps,
           served);
    if (!served) die("a new one must serve if the old one dies after TAKE");
}
