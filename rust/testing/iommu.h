/* A driver behind an IOMMU, and the front-end that has it. The front-end answers misses as QEMU
 * does, or lies. As QEMU's, it answers none while it waits for a message's answer. */
#ifndef IOMMU_H
#define IOMMU_H
#include "front.h"
#include <pthread.h>
#include <stdatomic.h>
#include <stdbool.h>
#include <stddef.h>
#include <stdint.h>

enum {
    SET_FEATURES = 2,
    SET_MEM_TABLE = 5,
    SET_LOG_BASE = 6,
    SET_VRING_ADDR = 9,
    IOTLB_MSG = 22
};
enum { MISS = 1, UPDATE = 2, INVALIDATE = 3 };
enum { NONE = 0, READ = 1, WRITE = 2, BOTH = 3 };
enum { PAGE = 4096 };
/* The last I/O addresses of the guest's memory are far from 2^64, and no guest address is one. */
#define SHIFT 0x2000000000000000ull
#define LAST_PAGE (-(uint64_t)PAGE)
/* These pages of the guest are mapped for reading alone. */
enum { SHOWN_LEN = 1 << 16 };
#define SHOWN (HIGH + REGION_LEN - SHOWN_LEN)

struct iotlb {
    uint64_t iova, size, user;
    uint8_t access, kind, padding[6];
};

/* How misses are answered. */
enum manner {
    HONEST,   /* by an update of the page, and then by 0 */
    REFUSING, /* by 1 */
    SILENT,   /* not at all */
    EMPTY,    /* by 0, and the page isn't mapped */
    FLUSHING, /* an update, an invalidation of all, and then 0 */
    LARGE,    /* by an update of 2 MiB around it */
    HIDING,   /* by 1 for used rings, else HONEST */
    HELD,     /* by 1, once misses are answered in another manner */
    ANYHOW    /* by chance one of these, or by something else */
};

extern struct front front;
extern int failed;
extern pthread_mutex_t line; /* the front-end is one thread at a time */
extern _Atomic int manner;
extern _Atomic unsigned misses, updates; /* how many came, and how many were answered by one */
extern _Atomic unsigned last_misses;     /* and how many were for the last page of all */
extern _Atomic uint64_t moved; /* pages of request buffers are mapped to those so far behind */
extern int channel[2];

void check(const char *what, bool holds);
uint64_t now(void); /* milliseconds */
uint64_t user_at(uint64_t guest);

/* A message from a thread that isn't the front-end's yet, and all that is mapped unmapped. */
uint64_t tell(uint8_t kind, uint64_t iova, uint64_t size, uint64_t user, uint8_t access);
void flush(void);

/* The back-end's channel, and a reply there that is none. */
void open_channel(void);
void close_channel(void);
void send_rubbish(int fd);

void start_ring(size_t ring, uint16_t position);
uint16_t stop_ring(size_t ring);
void enable_ring(uint32_t ring, uint32_t enabled);

/* The ring begins again, with no chain in it; and a request that has to be answered. */
void begin_again(size_t ring);
void ask_root(const char *what);

/* Front-ends that lie (iommu_lies.c). */
void last(void);
void large(void);
void restarts(unsigned count);
void stores(const char *dir, unsigned count);
void anyhow(unsigned seconds);
#endif
