/* A front-end of vhost-user with a driver of virtio-fs, for tests: it starts a back-end, has memory
 * and rings, and asks. */
#ifndef FRONT_H
#define FRONT_H
#include <stdatomic.h>
#include <stdbool.h>
#include <stddef.h>
#include <stdint.h>
#include <sys/types.h>

/* The guest's memory: two regions of one file, far apart for the guest, and one that no descriptor
 * ever names. Each ring has a page for each of its parts, a stretch for requests, and one for
 * rooms. */
enum { RINGS = 3, RING_SIZE = 128, REGIONS = 3, REGION_LEN = 8 << 20, QUIET_LEN = 1 << 16 };
#define HIGH (1ull << 32)
/* no bytes of rings and requests, read from an odd place, are such an address */
#define QUIET 0x5a3c96e17b2d0000ull

struct front_ring {
    int kick, call, err;
    uint16_t offered, seen; /* how many chains were offered, and how many came back */
    /* and how many were offered when the device was last told, or wasn't since it needn't be */
    uint16_t told;
    uint64_t unique;       /* of the last request */
    uint64_t kicks, calls; /* how often the device was told, and told */
};

struct front {
    const char *server, *dir;
    const char *const *options; /* of the back-end, ending with NULL */
    char folder[64], socket[80];
    pid_t pid;
    int connection, memory_fd;
    uint8_t *memory;
    uint64_t features;
    bool has_event_index; /* EVENT_INDEX of the environment is 1: VIRTIO_F_EVENT_IDX is taken */
    /* For so many microseconds the driver looks before it sleeps, as a vCPU under KVM does. */
    unsigned looks;
    /* Behind an IOMMU, the driver's addresses are the guest's and so much. */
    bool has_iommu;
    uint64_t shift;
    struct front_ring rings[RINGS];
};

/* A reply: `error` as a positive number; `data` stands behind its header. -1 if the chain came back
 * with no reply. */
struct reply {
    int error;
    uint32_t len;
    uint8_t data[1 << 16];
};

_Noreturn void die(const char *format, ...) __attribute__((format(printf, 1, 2)));

/* Makes memory and rings; starts a back-end and connects. */
void front_begin(struct front *front, const char *server, const char *dir,
                 const char *const *options);
void front_connect(struct front *front);

/* Leaves the back-end, which has to end with 0. */
void front_leave(struct front *front);

/* The milliseconds of processor time that the back-end took so far, with its children. */
double front_processor(const struct front *front);

/* Messages: one that is acknowledged, with the number that it is acknowledged by; one that isn't;
 * and one that is answered in `body`. */
uint64_t front_tell(struct front *front, uint32_t request, const void *body, uint32_t len,
                    const int *fds, size_t fd_count);
void front_say(struct front *front, uint32_t request, const void *body, uint32_t len);
void front_query(struct front *front, uint32_t request, void *body, uint32_t len);

/* A number that a message without a body asks for. */
uint64_t front_number(struct front *front, uint32_t request);

/* Features and memory; then rings from a position on. */
void front_set_up(struct front *front);
void front_set_memory(struct front *front);
void front_start_ring(struct front *front, size_t ring, uint16_t position);
uint16_t front_stop_ring(struct front *front, size_t ring);

/* Where things stand for the guest, and here. */
uint64_t desc_at(size_t ring);
uint64_t avail_at(size_t ring);
uint64_t used_at(size_t ring);
uint64_t request_at(size_t ring);
uint64_t room_at(size_t ring);
uint8_t *front_at(const struct front *front, uint64_t guest);
_Atomic uint16_t *index_at(const struct front *front, uint64_t guest);

/* One descriptor of a table, and a chain offered. */
void put_descriptor(const struct front *front, uint64_t table, unsigned k, uint64_t addr,
                    uint32_t len, unsigned flags, unsigned next);
void front_offer(struct front *front, size_t ring, uint16_t head);

/* The nanoseconds of a clock that nobody sets. */
double front_now(void);

/* Kicks, unless the device says that it looks anyway (VIRTIO 1.2, 2.7.10). */
void front_kick(struct front *front, size_t ring);

/* Sleeps as VIRTIO 1.2, 2.7.7 says until all that was offered is back; false if that takes
 * longer. */
bool front_wait(struct front *front, size_t ring, int milliseconds);

/* Offers a request of FUSE with a room of so many bytes, and kicks; and does so, waits, and reads
 * the reply. */
void front_send(struct front *front, size_t ring, uint32_t opcode, uint64_t node, const void *body,
                size_t len, size_t room);
void front_read(struct front *front, size_t ring, struct reply *reply);
void front_ask(struct front *front, size_t ring, uint32_t opcode, uint64_t node, const void *body,
               size_t len, struct reply *reply);

/* A session, and what tests ask most. These end the program if they are refused. */
void begin_session(struct front *front);
uint64_t look_up(struct front *front, uint64_t parent, const char *name);
uint64_t open_node(struct front *front, uint64_t node, uint32_t flags);

/* Waits until the back-end opens a file on which this process has a lease: the chain was walked. */
void wait_for_opening(int lease);

#endif
