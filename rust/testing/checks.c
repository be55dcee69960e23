/* Checks of the daemon without a guest: checks DAEMON DIR WHAT [N]. DIR is made by alone.sh; beside
 * it stands a file `secret`, which no request may reach. */
#define _GNU_SOURCE
#include "checks.h"
#include <errno.h>
#include <fcntl.h>
#include <linux/fuse.h>
#include <pthread.h>
#include <signal.h>
#include <stdio.h>
#include <stdlib.h>
#include <string.h>
#include <sys/mman.h>
#include <sys/stat.h>
#include <sys/wait.h>
#include <time.h>
#include <unistd.h>

enum {
    SET_LOG_BASE = 6,
    SET_VRING_ENABLE = 18,
    GET_CONFIG = 24,
    ADD_MEM_REG = 37,
    REM_MEM_REG = 38
};

struct front front;
struct reply reply;
_Atomic bool over;
int failed;

static const char *name_of(int error) {
    return error < 0 ? "no reply" : error > 0 ? strerror(error) : "done";
}

void expect(const char *what, int got, int wanted) {
    if (got == wanted) return;
    fprintf(stderr, "FAILED: %s: %s, and not %s\n", what, name_of(got), name_of(wanted));
    failed = 1;
}

void check(const char *what, bool holds) {
    if (holds) return;
    fprintf(stderr, "FAILED: %s\n", what);
    failed = 1;
}

/* ------------------------------------------------------------- no notification is lost */

static _Atomic uint64_t slept; /* how often the driver has */

/* A driver that sleeps as soon as it may, beside a device that is as fast as it can be: so often,
 * or until it is over. */
static void sleep_on(size_t ring, uint64_t wanted) {
    struct fuse_in_header head = {.len = 56, .opcode = FUSE_GETATTR, .unique = 1, .nodeid = ROOT};
    struct front_ring *r = &front.rings[ring];
    uint64_t seed = 1, chains = 0;
    for (unsigned k = 0; k < RING_SIZE; k += 2) {
        uint64_t at = request_at(ring) + 64 * k, room = room_at(ring) + 256 * k;
        memcpy(front_at(&front, at), &head, sizeof head);
        put_descriptor(&front, desc_at(ring), k, at, 56, 1, k + 1);
        put_descriptor(&front, desc_at(ring), k + 1, room, 120, 2, 0);
    }
    for (; slept < wanted && !over; slept++) {
        seed = seed * 6364136223846793005u + 1442695040888963407u;
        for (unsigned k = 0; k <= seed >> 62; k++, chains++)
            front_offer(&front, ring, (uint16_t)(2 * r->offered % RING_SIZE));
        front_kick(&front, ring);
        for (volatile unsigned wait = seed >> 40 & 255; wait > 0;) wait = wait - 1;
        if (!front_wait(&front, ring, 20000))
            die("a notification is lost after %llu sleeps", (unsigned long long)slept);
    }
    printf("%llu sleeps, %llu chains: none lost\n", (unsigned long long)slept,
           (unsigned long long)chains);
}

static void *sleep_until_over(void *none) {
    sleep_on(2, UINT64_MAX);
    return none;
}

/* After this the driver still sleeps and wakes: twice, since it may have been about to. */
static void goes_on(const char *what) {
    uint64_t before = slept;
    for (unsigned tries = 0; slept < before + 2; tries++) {
        if (tries == 200000) die("the driver isn't told any more after %s", what);
        usleep(100);
    }
}

/* The ring of such a driver stops and goes on, is disabled and enabled, and its memory is told
 * anew, while the driver kicks. */
static void pauses(unsigned rounds) {
    uint32_t enable[2] = {2, 0};
    pthread_t driver;
    front_start_ring(&front, 2, 0);
    pthread_create(&driver, NULL, sleep_until_over, NULL);
    for (unsigned k = 0; k < rounds; k++) {
        uint16_t position = front_stop_ring(&front, 2);
        usleep(k % 3 * 50);
        front_start_ring(&front, 2, position);
        goes_on("a stop");
        for (enable[1] = 0; enable[1] < 2; enable[1]++) {
            check("SET_VRING_ENABLE",
                  front_tell(&front, SET_VRING_ENABLE, enable, sizeof enable, NULL, 0) == 0);
            usleep(k % 5 * 50);
        }
        goes_on("a disabling");
        front_set_memory(&front);
        goes_on("a memory");
    }
    over = true;
    pthread_join(driver, NULL);
    check("the position", front_stop_ring(&front, 2) == front.rings[2].offered);
    printf("pauses: %u of each kind beside it\n", rounds);
}

/* ------------------------------------------------------------- the log of pages */

static bool is_marked(const uint8_t *log, uint64_t guest) {
    return log[guest / 4096 / 8] >> guest / 4096 % 8 & 1;
}

static void dirty_pages(void) {
    enum { LOG_LEN = 1 << 18 }; /* up to 8 GiB */
    int fd = memfd_create("log", MFD_CLOEXEC);
    uint64_t told[2] = {LOG_LEN, 0};
    struct fuse_read_in in = {.size = 10000};
    if (fd < 0 || ftruncate(fd, LOG_LEN)) die("no log");
    uint8_t *log = mmap(NULL, LOG_LEN, PROT_READ | PROT_WRITE, MAP_SHARED, fd, 0);
    uint64_t node = look_up(&front, ROOT, "other");
    in.fh = open_node(&front, node, O_RDONLY);
    if (front_tell(&front, SET_LOG_BASE, told, sizeof told, &fd, 1)) die("no log");
    front_send(&front, 1, FUSE_READ, node, &in, sizeof in, 16 + 40000);
    if (!front_wait(&front, 1, 20000)) die("READ isn't answered");
    front_read(&front, 1, &reply);
    check("bytes of READ", reply.len == 10000);
    unsigned marked = 0;
    for (uint64_t page = 0; page < LOG_LEN * 8ull; page++) marked += is_marked(log, 4096 * page);
    check("the ring's page is marked", is_marked(log, used_at(1)));
    check("the header's page is marked", is_marked(log, room_at(1)));
    for (uint64_t k = 0; k < 3; k++)
        check("a page of data is marked", is_marked(log, room_at(1) + 0x1000 + 0x2000 * k));
    check("no other page is marked", marked == 5);
    printf("log: %u pages of a READ are marked\n", marked);
}

/* ------------------------------------------------------------- rings that stop and go on */

static void ask_root(size_t ring) {
    struct fuse_getattr_in in = {0};
    front_ask(&front, ring, FUSE_GETATTR, ROOT, &in, sizeof in, &reply);
    expect("GETATTR", reply.error, 0);
}

/* The last request once more, and no kick: whoever goes on with the ring may hear none. */
static void offer_again(size_t ring) { front_offer(&front, ring, 0); }

static bool is_served(size_t ring) {
    return atomic_load(index_at(&front, used_at(ring) + 2)) == front.rings[ring].offered;
}

/* A ring begins near the end of the positions, stops, goes on, and is disabled for a while. What
 * was offered before is served first. */
static void rings(void) {
    enum { FIRST = 65530 };
    uint32_t enable[2] = {2, 0};
    struct fuse_getattr_in in = {0};
    front.rings[2].offered = front.rings[2].seen = FIRST;
    atomic_store(index_at(&front, avail_at(2) + 2), FIRST);
    atomic_store(index_at(&front, used_at(2) + 2), FIRST);
    for (uint16_t round = 0; round < 4; round++) {
        front_start_ring(&front, 2, (uint16_t)(FIRST + 5 * round));
        for (int k = 0; k < 4; k++) ask_root(2);
        offer_again(2);
        check("the position", front_stop_ring(&front, 2) == (uint16_t)(FIRST + 5 * (round + 1)));
        check("a ring that stops has served what was offered", is_served(2));
    }
    front_start_ring(&front, 2, front.rings[2].offered);
    for (int k = 0; k < RING_SIZE / 2; k++) offer_again(2);
    check("SET_VRING_ENABLE",
          front_tell(&front, SET_VRING_ENABLE, enable, sizeof enable, NULL, 0) == 0);
    check("a ring that is disabled has served what was offered", is_served(2));
    front_send(&front, 2, FUSE_GETATTR, ROOT, &in, sizeof in, 16 + 104);
    check("a disabled ring stands still", !front_wait(&front, 2, 200));
    enable[1] = 1;
    check("SET_VRING_ENABLE",
          front_tell(&front, SET_VRING_ENABLE, enable, sizeof enable, NULL, 0) == 0);
    check("an enabled ring goes on", front_wait(&front, 2, 20000));
}

/* The configuration space: the tag, and how many request queues there are. */
static void config(void) {
    struct {
        uint32_t offset, size, flags;
        char tag[36];
        uint32_t queues;
    } space = {.size = 40};
    front_query(&front, GET_CONFIG, &space, sizeof space);
    check("the tag", !strcmp(space.tag, "shared"));
    check("the number of request queues", space.queues == 2);
}

/* ------------------------------------------------------------- memory that changes */

static void *ask_on(void *count) {
    struct fuse_getattr_in in = {0};
    static struct reply mine;
    while (!over) {
        front_ask(&front, 2, FUSE_GETATTR, ROOT, &in, sizeof in, &mine);
        if (mine.error) die("GETATTR: %s", strerror(mine.error));
        ++*(uint64_t *)count;
    }
    return NULL;
}

static void memory_changes(unsigned rounds) {
    struct {
        uint64_t padding, guest, len, user, offset;
    } region = {0, 1ull << 36, 1 << 20, 1ull << 46, 0};
    int fd = memfd_create("more", MFD_CLOEXEC);
    uint64_t count = 0;
    pthread_t asker;
    if (fd < 0 || ftruncate(fd, 1 << 20)) die("no memory");
    front_start_ring(&front, 2, 0);
    pthread_create(&asker, NULL, ask_on, &count);
    for (unsigned k = 0; k < rounds; k++) {
        check("ADD_MEM_REG", front_tell(&front, ADD_MEM_REG, &region, sizeof region, &fd, 1) == 0);
        check("ADD_MEM_REG again",
              front_tell(&front, ADD_MEM_REG, &region, sizeof region, &fd, 1) == 1);
        check("REM_MEM_REG", front_tell(&front, REM_MEM_REG, &region, sizeof region, NULL, 0) == 0);
        check("REM_MEM_REG again",
              front_tell(&front, REM_MEM_REG, &region, sizeof region, NULL, 0) == 1);
        if (k % 4 == 0) front_set_memory(&front);
    }
    over = true;
    pthread_join(asker, NULL);
    printf("memory: %u changes beside %llu chains\n", 4 * rounds, (unsigned long long)count);
}

/* ------------------------------------------------------------- two queues at once */

/* A guest's thread on a queue of its own. Both ask for the same few files, and one begins sessions
 * anew meanwhile, so what the other holds may be gone at any time: then it hears so. */
struct asker {
    size_t ring;
    uint64_t seed, node, file, asked;
    struct reply reply;
};

static uint64_t next_number(struct asker *a) {
    a->seed = a->seed * 6364136223846793005u + 1442695040888963407u;
    return a->seed >> 33;
}

static void ask_as(struct asker *a, uint32_t opcode, uint64_t node, const void *body, size_t len) {
    front_ask(&front, a->ring, opcode, node, body, len, &a->reply);
    int error = a->reply.error;
    /* EAGAIN is openat2's, of a look-up beside renames. */
    if (error && error != ENOENT && error != EBADF && error != EEXIST && error != EAGAIN)
        expect("one of two queues", error, 0);
    a->asked++;
}

static void look_up_one(struct asker *a) {
    static const char *const names[] = {"file", "other", "dir", "slow", "out", "gone"};
    const char *name = names[next_number(a) % 6];
    struct fuse_entry_out entry;
    ask_as(a, FUSE_LOOKUP, ROOT, name, strlen(name) + 1);
    memcpy(&entry, a->reply.data, sizeof entry);
    if (!a->reply.error && S_ISREG(entry.attr.mode)) a->node = entry.nodeid;
}

static void open_one(struct asker *a) {
    struct fuse_open_in in = {.flags = O_RDONLY};
    struct fuse_open_out out;
    if (a->node == ROOT) return;
    ask_as(a, FUSE_OPEN, a->node, &in, sizeof in);
    memcpy(&out, a->reply.data, sizeof out);
    if (!a->reply.error) a->file = out.fh;
}

static void ask_one(struct asker *a) {
    struct fuse_read_in read_in = {.fh = a->file, .size = 4096};
    struct fuse_release_in release_in = {.fh = a->file};
    struct fuse_getattr_in getattr_in = {0};
    struct fuse_init_in init_in = {.major = 7, .minor = 38};
    struct fuse_forget_in forget_in = {.nlookup = 1 + next_number(a) % 2};
    struct {
        struct fuse_mknod_in in;
        char name[5];
    } mknod_in = {{.mode = S_IFREG | 0600}, "gone"};
    switch (next_number(a) % 12) {
    case 0: ask_as(a, FUSE_RELEASE, a->node, &release_in, sizeof release_in); break;
    case 1:
        front_send(&front, a->ring, FUSE_FORGET, a->node, &forget_in, sizeof forget_in, 0);
        break;
    case 2: ask_as(a, FUSE_GETATTR, a->node, &getattr_in, sizeof getattr_in); break;
    case 3: ask_as(a, FUSE_UNLINK, ROOT, "gone", 5); break;
    case 4: ask_as(a, FUSE_MKNOD, ROOT, &mknod_in, sizeof mknod_in); break;
    case 5:
        if (a->ring == 1 && next_number(a) % 16 == 0)
            ask_as(a, FUSE_INIT, 0, &init_in, sizeof init_in);
        break;
    case 6:
    case 7: open_one(a); break;
    case 8:
    case 9: ask_as(a, FUSE_READ, a->node, &read_in, sizeof read_in); break;
    default: look_up_one(a); break;
    }
    if (!front_wait(&front, a->ring, 20000)) die("a request isn't answered");
}

static void *ask_all(void *at) {
    struct asker *a = at;
    while (!over) ask_one(a);
    return NULL;
}

static void two_queues(unsigned seconds) {
    static struct asker askers[2] = {{.ring = 1, .seed = 1, .node = ROOT},
                                     {.ring = 2, .seed = 2, .node = ROOT}};
    pthread_t threads[2];
    front_start_ring(&front, 2, 0);
    for (int k = 0; k < 2; k++) pthread_create(&threads[k], NULL, ask_all, &askers[k]);
    sleep(seconds);
    over = true;
    for (int k = 0; k < 2; k++) pthread_join(threads[k], NULL);
    printf("two queues: %llu and %llu requests\n", (unsigned long long)askers[0].asked,
           (unsigned long long)askers[1].asked);
}

/* ------------------------------------------------------------- a slow file */

/* OPEN of a file on which somebody has a lease waits for the lease, 45 seconds at most. Answers the
 * file that has it. */
int lease_slow(const char *dir) {
    char path[200];
    snprintf(path, sizeof path, "%s/slow", dir);
    signal(SIGIO, SIG_IGN);
    int fd = open(path, O_RDWR);
    if (fd < 0 || fcntl(fd, F_SETLEASE, F_WRLCK)) die("no lease: %s", strerror(errno));
    return fd;
}

/* Another queue goes on. */
static void slow_file(const char *dir) {
    unsigned asked = 0;
    time_t end;
    struct fuse_getattr_in in = {0};
    struct fuse_open_in open_in = {.flags = O_RDONLY};
    uint64_t node = look_up(&front, ROOT, "slow");
    int fd = lease_slow(dir);
    front_start_ring(&front, 2, 0);
    front_send(&front, 1, FUSE_OPEN, node, &open_in, sizeof open_in, 16 + 16);
    if (front_wait(&front, 1, 300)) die("the file isn't slow");
    for (end = time(NULL) + 20; asked < 1000 && time(NULL) < end; asked++) {
        front_ask(&front, 2, FUSE_GETATTR, ROOT, &in, sizeof in, &reply);
        expect("GETATTR beside a slow file", reply.error, 0);
    }
    if (atomic_load(index_at(&front, used_at(1) + 2)) == front.rings[1].offered)
        die("the file isn't slow");
    close(fd);
    if (!front_wait(&front, 1, 20000)) die("the slow file isn't opened");
    printf("a slow file: %u chains of another queue meanwhile\n", asked);
}

/* The front-end leaves while a request takes long: the daemon waits for a while, and ends by
 * itself (front_leave looks at its status). */
static void leave(const char *dir) {
    struct fuse_open_in open_in = {.flags = O_RDONLY};
    uint64_t node = look_up(&front, ROOT, "slow");
    lease_slow(dir);
    front_send(&front, 1, FUSE_OPEN, node, &open_in, sizeof open_in, 16 + 16);
    if (front_wait(&front, 1, 300)) die("the file isn't slow");
}

/* With a request and a room of its own. */
void send_apart(size_t ring, unsigned k, uint32_t opcode, uint64_t node, const void *body,
                uint32_t len, uint32_t room) {
    struct fuse_in_header head = {
        .len = (uint32_t)sizeof head + len, .opcode = opcode, .unique = k + 1, .nodeid = node};
    uint64_t at = request_at(ring) + 0x1000 * k, table = desc_at(ring);
    memcpy(front_at(&front, at), &head, sizeof head);
    memcpy(front_at(&front, at) + sizeof head, body, len);
    put_descriptor(&front, table, 4 * k, at, head.len, 1, 4 * k + 1);
    put_descriptor(&front, table, 4 * k + 1, room_at(ring) + 0x1000 * k, room, 2, 0);
    front_offer(&front, ring, (uint16_t)(4 * k));
    front_kick(&front, ring);
}

/* Whether so many chains of ring 1 came back since it began, within 20 seconds. */
static bool came_back(uint16_t count) {
    for (unsigned tries = 0; tries < 200000; tries++) {
        if (atomic_load(index_at(&front, used_at(1) + 2)) == count) return true;
        if (tries > 1000) usleep(100);
    }
    return false;
}

static void *close_later(void *fd) {
    usleep(300000);
    close(*(int *)fd);
    return NULL;
}

/* Threads of one queue: while one has a slow file, others go on, and their chains come back before.
 * The ring stops, and the last one comes back when it goes on. */
static void pool(const char *dir) {
    struct fuse_getattr_in in = {0};
    struct fuse_open_in open_in = {.flags = O_RDONLY};
    uint64_t node = look_up(&front, ROOT, "slow");
    uint16_t before = front.rings[1].offered, asked = 0;
    pthread_t closer;
    int fd = lease_slow(dir);
    send_apart(1, 1, FUSE_OPEN, node, &open_in, sizeof open_in, 16 + 16);
    for (; asked < 1000; asked++) {
        send_apart(1, 2 + asked % 8, FUSE_GETATTR, ROOT, &in, sizeof in, 16 + 104);
        if (!came_back((uint16_t)(before + asked + 1)))
            die("GETATTR waits for a slow file of its queue");
    }
    pthread_create(&closer, NULL, close_later, &fd);
    check("the position", front_stop_ring(&front, 1) == (uint16_t)(before + asked + 1));
    check("all but the slow one are back", came_back((uint16_t)(before + asked)));
    pthread_join(closer, NULL);
    front_start_ring(&front, 1, (uint16_t)(before + asked + 1));
    check("all are back", came_back((uint16_t)(before + asked + 1)));
    const uint8_t *element = front_at(&front, used_at(1)) + 4 + 8 * ((before + asked) % RING_SIZE);
    check("the slow one is the last", element[0] == 4);
    printf("a slow file: %u chains of the same queue meanwhile, and the ring stops\n", asked);
    front.rings[1].seen = front.rings[1].offered;
}

/* ------------------------------------------------------------- a group besides the caller's own */

/* FUSE_CREATE_SUPP_GROUP in `flags2`, FUSE_EXT_GROUPS, and struct fuse_supp_groups: newer than some
 * headers. */
enum { CREATE_SUPP_GROUP = 1 << 2, EXT_GROUPS = 32, OTHER_USER = 1000, GROUP_OF_SHARED = 4242 };

/* A MKDIR of a name of 7 letters by another user, whose request tells a group behind the name, or
 * none; its errno. */
static int mkdir_with(uint64_t parent, const char *name, uint32_t group) {
    struct {
        struct fuse_in_header head;
        struct fuse_mkdir_in in;
        char name[8];
        struct fuse_ext_header ext;
        uint32_t group_count, group;
    } request = {.in = {.mode = 0755},
                 .ext = {.size = 16, .type = EXT_GROUPS},
                 .group_count = 1,
                 .group = group};
    size_t len = group ? sizeof request : sizeof request - 16;
    request.head = (struct fuse_in_header){.len = (uint32_t)len,
                                           .opcode = FUSE_MKDIR,
                                           .unique = ++front.rings[1].unique,
                                           .nodeid = parent,
                                           .uid = OTHER_USER,
                                           .gid = OTHER_USER,
                                           .total_extlen = group ? 2 : 0};
    memcpy(request.name, name, sizeof request.name);
    memcpy(front_at(&front, request_at(1)), &request, len);
    put_descriptor(&front, desc_at(1), 0, request_at(1), (uint32_t)len, 1, 1);
    put_descriptor(&front, desc_at(1), 1, room_at(1), 16, 3, 2);
    put_descriptor(&front, desc_at(1), 2, room_at(1) + 0x1000, 4096, 2, 0);
    front_offer(&front, 1, 0);
    front_kick(&front, 1);
    if (!front_wait(&front, 1, 20000)) die("MKDIR isn't answered");
    front_read(&front, 1, &reply);
    return reply.error;
}

/* A directory that its group alone may write to. */
static void groups(const char *dir) {
    struct fuse_init_in in = {.major = 7,
                              .minor = 38,
                              .max_readahead = 1 << 17,
                              .flags = ~0u,
                              .flags2 = CREATE_SUPP_GROUP};
    struct stat made;
    char path[4096];
    front_ask(&front, 1, FUSE_INIT, 0, &in, sizeof in, &reply);
    expect("INIT", reply.error, 0);
    uint64_t shared = look_up(&front, ROOT, "shared");
    expect("MKDIR without a group", mkdir_with(shared, "without", 0), EACCES);
    expect("MKDIR with another group", mkdir_with(shared, "another", GROUP_OF_SHARED + 1), EACCES);
    expect("MKDIR with the group", mkdir_with(shared, "allowed", GROUP_OF_SHARED), 0);
    expect("MKDIR without a group again", mkdir_with(shared, "without", 0), EACCES);
    snprintf(path, sizeof path, "%s/shared/allowed", dir);
    check("the directory is the user's",
          !stat(path, &made) && made.st_uid == OTHER_USER && made.st_gid == OTHER_USER);
}

static void run(const char *what, const char *dir, unsigned count) {
    if (!strcmp(what, "escape"))
        escape(dir);
    else if (!strcmp(what, "readonly"))
        readonly();
    else if (!strcmp(what, "sleeps"))
        sleep_on(1, count);
    else if (!strcmp(what, "pauses"))
        pauses(count);
    else if (!strcmp(what, "looks"))
        looks(count);
    else if (!strcmp(what, "log"))
        dirty_pages();
    else if (!strcmp(what, "rings"))
        rings();
    else if (!strcmp(what, "config"))
        config();
    else if (!strcmp(what, "memory"))
        memory_changes(count);
    else if (!strcmp(what, "slots"))
        slots();
    else if (!strcmp(what, "two"))
        two_queues(count);
    else if (!strcmp(what, "slow"))
        slow_file(dir);
    else if (!strcmp(what, "leave"))
        leave(dir);
    else if (!strcmp(what, "pool"))
        pool(dir);
    else if (!strcmp(what, "held"))
        held(dir, count);
    else if (!strcmp(what, "groups"))
        groups(dir);
    else if (!strcmp(what, "labels"))
        labels(dir);
    else if (!strcmp(what, "lists"))
        access_lists(dir);
    else if (!strcmp(what, "platform"))
        platform();
    else if (!strcmp(what, "wild"))
        wild(count);
    else
        die("no such check: %s", what);
}

/* Options of the daemon, for what wants some. */
static const char *const *options_for(const char *what) {
    static const char *const only_read[] = {"--readonly", NULL}, *const tagged[] = {"--tag",
                                                                                    "shared", NULL};
    /* Where the daemon isn't the first process of a namespace, a signal that nobody thought of ends
     * it. */
    static const char *const chroot[] = {"--sandbox", "chroot", NULL};
    static const char *const labelled[] = {"--security-label", NULL};
    static const char *const listed[] = {"--posix-acl", NULL};
    static const char *const polling[] = {"--poll-max-us", "10000", NULL};
    if (!strcmp(what, "readonly")) return only_read;
    if (!strcmp(what, "labels")) return labelled;
    if (!strcmp(what, "lists")) return listed;
    if (!strcmp(what, "wild")) return chroot;
    if (!strcmp(what, "looks")) return polling;
    return strcmp(what, "config") ? NULL : tagged;
}

int main(int argc, char **argv) {
    if (argc < 4)
        die("usage: checks DAEMON DIR "
            "escape|readonly|sleeps|pauses|looks|log|rings|config|memory|slots|two|slow|leave|pool|"
            "held|groups|labels|lists|platform|wild [N]");
    const char *what = argv[3], *dir = argv[2];
    front_begin(&front, argv[1], dir, options_for(what));
    if (!strcmp(what, "log")) front.features |= 1ull << 26;
    front_set_up(&front);
    front_start_ring(&front, 0, 0);
    front_start_ring(&front, 1, 0);
    if (strcmp(what, "labels")) begin_session(&front); /* it offers no labels */
    run(what, dir, argc > 4 ? (unsigned)strtoul(argv[4], NULL, 10) : 0);
    front_leave(&front);
    return failed;
}
