/*
 * pitskhomu.h: the device side of virtio-fs (VIRTIO 1.2, 2.7 and 5.11; FUSE 7.38) for a VMM.
 *
 * The library walks a split virtqueue, decodes each FUSE request and encodes its reply. It accesses
 * no guest memory, file, socket or clock: it returns the address of each load and store, and the
 * caller performs it. So vCPUs may run meanwhile. Each descriptor chain takes these calls:
 *     pk_pop      returns loads of the ring and its descriptors (PK_LOAD), then a chain (PK_DONE).
 *                 pk_pop_ring makes the loads, too, where the guest's memory is mapped
 *     pk_decode   decodes the bytes of the request, and returns the file call
 *     pk_reply_*  encodes the answer of your file system
 *     pk_push     returns the stores that add the chain to the used ring. pk_push_ring makes them,
 *                 and ends the push
 *     pk_pushed   ends the push, and returns whether to notify the driver
 *
 * THE SMALLEST LOOP. examples/c/sketch.c has the rest of it, and monitor.c shows more.
 * <!-- examples/c/sketch.c: serve -->
 * ```
 * static uint32_t serve(bool *notify) {
 *     struct pk_pop_result pop;
 *     uint32_t s;
 *     while ((s = pk_pop_ring(&chain, &queue, &ring, &pop)) == PK_DONE) {
 *         if (pop.fault == 0 && (s = serve_request(&pop)) != PK_DONE) break;
 *         if ((s = push(notify)) != PK_DONE) break; // a faulty chain: without a reply
 *     }
 *     return s;
 * }
 * ```
 *
 * TO BUILD: C99 or C++11, for Linux on x86-64. Link libpitskhomu.a, or libpitskhomu.so
 * (-lpitskhomu). Both need malloc, realloc, free, memcpy, memmove and memset, and nothing else.
 *
 * VERSIONS. A program runs with each later library of its major number (PK_VERSION). A later header
 * may add kinds of calls: reply to an unknown kind with pk_reply_err(ENOSYS), unless its `answer`
 * is NONE. It may add fields at the end of struct pk_pop_result, pk_call, pk_stores, pk_store,
 * pk_miss, pk_entry and pk_statfs: initialise these with zeros. A program that isn't compiled again
 * gets and passes the fields of its own header. No other struct grows.
 *
 * OBJECTS. `struct pk_device` and `struct pk_queue` hold plain numbers and may be copied. `struct
 * pk_chain`, a handle for one chain at a time, and `struct pk_iotlb` own memory: zero each before
 * its first use, never copy it, and free it. The library keeps no pointer that you pass. It returns
 * names and values as offsets into the request (`struct pk_span`), and pk_build alone a pointer.
 *
 * THREADS. Two calls may run at the same time if each object that both are passed is const in both;
 * else they need an order: a lock, or a join. A chain may move between threads. Threads with chains
 * and queues of their own share only an IOMMU's table and `device`, which only pk_reply_init and
 * pk_restore write: use a reader-writer lock.
 *
 * RULES for the caller. The library can't check them; it does refuse calls in a wrong order.
 *  1. A pointer is valid for its length; with length 0 it may be NULL. No other pointer is NULL. An
 *     argument that the call writes overlaps no other.
 *  2. Load each byte once: copy it, pass the copy, and don't read the guest's byte again.
 *  3. A load of 2 bytes is one atomic load with acquire order. Other loads need no order.
 *     pk_pop_ring loads so.
 *  4. To push, copy the data into the reply buffer, and then the front (the reply without its data)
 *     over the buffer's first bytes; store the two halves of the used element; store the used
 *     index, atomically and with release order; issue a full barrier
 *     (atomic_thread_fence(memory_order_seq_cst)); load the 2 bytes at `seen_at`. pk_push_ring does
 *     so, but for the data.
 *  5. Use windows only until pk_pushed, pk_drop or pk_abandon. Store only into reply windows.
 *  6. A chain keeps the regions that its handle had at the pop. From its first pk_pop until it is
 *     pushed, dropped or abandoned, leave their memory mapped in the VMM. Regions that other
 *     handles get meanwhile must contain the queue's rings, too.
 *  7. During a migration, log each page that you stored into, after the store and before pk_pushed.
 *     Also log data in the reply buffer that isn't part of the reply. Behind an IOMMU, log the
 *     pages of your regions by the host addresses of windows and stores.
 *  8. Before a queue is reset (pk_queue_begin, pk_restore), end the loads, stores and file calls of
 *     its chains, and free their handles with pk_abandon.
 *  9. Answer each decoded chain, unless `answer` is NONE: at least with pk_reply_err(EIO).
 * 10. malloc, realloc and free belong to one allocator. No call is made from a signal handler, nor
 *     from the child of a fork of a process with threads.
 *
 * SEVERAL CHAINS IN FLIGHT: up to `max_in_flight` of a queue, each with its own `struct pk_chain`.
 * Push them in any order. Hold the queue's lock
 *   - from a chain's first pk_pop to its last, and from pk_push to pk_pushed (checks_often);
 *   - from pk_set_notification to the end of the pop that follows.
 *
 * NOTIFICATIONS. Between resets none is lost, of driver or device, if each thread of a queue does
 * what pitskhomu_turns.h returns, as in examples/c/live.c, and the driver keeps VIRTIO 1.2, 2.7.13
 * and 2.7.14. A loop without it keeps the rules of docs/EMBEDDING.md, "A loop of your own".
 *
 * FEATURES to offer: VERSION_1 (32; refuse a driver without it), INDIRECT_DESC (28), EVENT_IDX (29,
 * with `event_index`), ACCESS_PLATFORM (33, if addresses are guest physical, or chains have the
 * IOMMU's table), IN_ORDER (35, if you push in the order of the pops). Not RING_PACKED (34).
 *
 * PROVED, for any arguments of these types: each function returns, never panics, and accesses only
 * the memory of its arguments. It has the effect of the call of the handle of crates/fs_chain. Of
 * that, loads, calls, replies (but your own bytes) and stores follow from the bytes and answers
 * passed, by VIRTIO 1.2 and the FUSE grammar: of one chain, in Rattle of many (PROVED.md).
 * TESTED, not proved: that pk_chain_free frees all; calls on a chain that moves between threads;
 * NULL with length 0; inline functions; the numbers that pk_chain_set_memory, pk_queue_begin and
 * pk_restore give, which are C (tools/pk_numbers.c); which error is returned if PK_OUT_OF_MEMORY
 * and a later one apply.
 */
#ifndef PITSKHOMU_CHAIN_H
#define PITSKHOMU_CHAIN_H
#include <stddef.h>
#include <stdint.h>
#if defined(__GNUC__)
#define PK_NONNULL(...) __attribute__((nonnull(__VA_ARGS__))) /* pointers without a length */
#define PK_RESULT __attribute__((warn_unused_result))
#else
#define PK_NONNULL(...)
#define PK_RESULT
#endif
#define PK_CHECK(...) PK_NONNULL(__VA_ARGS__) PK_RESULT
#if defined(__GNUC__) && !defined(__clang__) && __GNUC__ >= 11
#define PK_USES(...) __attribute__((access(__VA_ARGS__)))
#else
#define PK_USES(...)
#endif
#define PK_READS(pointer, length) PK_USES(read_only, pointer, length)
#define PK_WRITES(pointer, length) PK_USES(write_only, pointer, length)
#define PK_FILLS(pointer) PK_USES(write_only, pointer)
#ifdef __cplusplus
extern "C" {
#endif
/* ---------------------------------------------------------------- numbers */
#define PK_VERSION 0x10000u      /* of this header, 1.0: the major number << 16 | the minor one */
#define PK_REGIONS_MAX 512u      /* regions of the guest's memory */
#define PK_QUEUES_MAX 64u        /* queues in a saved record */
#define PK_LOAD_MAX 4096u        /* bytes of the longest load of a pop */
#define PK_FIRST 80u             /* bytes of a request to load first */
#define PK_REQUEST_MAX 0x101000u /* bytes: the least `limit` of struct pk_device */
#define PK_FRONT_MAX 160u        /* bytes of the longest front of a reply (CREATE's) */
#define PK_HEADER 16u            /* bytes of struct fuse_out_header: data follows it */

/* What a call returns, and what to do then. From 64 on the call changed no chain, queue or device,
 * and zeroed its results, unless its comment says otherwise. Comments list errors in the order of
 * checks; "the usual" are PK_WRONG_ORDER, if the chain has no memory set, or a table's slot is
 * zeros, and then 96 to 103, if a field of the device or queue is invalid: the first of these. */
enum pk_status {
    PK_DONE = 0, /* the next call, as enum pk_state says */
    /* 2 to 8 stop the queue: set DEVICE_NEEDS_RESET, and send a notification of a configuration
     * change (2.1.2). Push what is in flight, and pop again after the queue's reset. */
    PK_STOPPED = 1,                 /* it was stopped before */
    PK_AVAIL_INDEX_UNREACHABLE = 2, /* the available index isn't mapped */
    PK_AVAIL_TOO_FAR = 3,           /* more chains are available than the queue's size */
    PK_RING_ENTRY_UNREACHABLE = 4,  /* the available ring's entry isn't mapped */
    PK_HEAD_OUT_OF_TABLE = 5,       /* the head isn't below the queue's size */
    PK_USED_UNREACHABLE = 6,        /* the used element or index, or avail_event, isn't mapped */
    PK_AVAIL_FLAGS_UNREACHABLE = 7, /* the available flags, or used_event, aren't mapped */
    PK_DESCRIPTOR_UNREACHABLE = 8,  /* a descriptor of the queue's own table isn't mapped */
    PK_OUT_OF_MEMORY = 9, /* an allocation failed, and nothing changed: call again later. If it
                             was a pop, call pk_drop first */
    PK_LOAD = 32,         /* load these bytes, and call again with them */
    PK_IDLE = 33,         /* no chain is available: sleep, as NOTIFICATIONS says */
    PK_MORE = 34,         /* pass `needed` bytes of the request, from its start */
    PK_NO_ROOM = 35,      /* the call is answered, but the reply buffer is too short: undo a look-up
                             or an open, which the guest doesn't count, and push without a reply */
    PK_FULL = 36,         /* the entry doesn't fit in the size that the guest asked for: undo its
                             look-up, and reply with the list; the first: pk_reply_err(EINVAL) */
    PK_LIST_FAILS = 37,   /* the entry fits in that size, but not in the reply buffer: undo its
                             look-up, and reply with pk_reply_err(EIO) */
    PK_ENTRIES = 38,      /* the listing failed after entries whose look-ups are counted: the reply
                             has these. After pk_push copy the list's first `len - front_len` bytes
                             into the reply buffer from PK_HEADER on */
    PK_MISS = 39,         /* I/O addresses aren't mapped in the table: map them, and pop again. As
                             after PK_OUT_OF_MEMORY, the driver doesn't notify for the chain */
    PK_BAD_ARGUMENT = 66, /* another number that the function doesn't allow, or a wrong length */
    PK_SHORT_BUFFER = 69, /* the buffer is too short: pass a longer one */
    PK_LONG_REPLY = 71,   /* a READ's data is longer than data_len, or bytes of your own are longer
                             than the reply buffer: cut it */
    PK_WRONG_ORDER = 73,  /* this call doesn't come next for the chain: enum pk_state has the one */
    PK_OTHER_QUEUE = 74,  /* the chain is of another queue, or its queue was reset: abandon it. Or
                             another chain was popped or dropped since this pop began: drop it */
    PK_OTHER_KIND = 75,   /* the call has an answer of another kind: give one of `answer` */
    PK_CHAIN_IN_FLIGHT = 76, /* the chain is, or `max_in_flight` are; of pk_save: any is. Push */
    PK_NOT_MAPPED = 77,   /* a part of the queue's rings that the call needs isn't in the handle's
                             regions (rule 6), or not in the table: map it */
    PK_PUSHING = 78,      /* another chain of the queue is between pk_push and pk_pushed: end it */
    PK_OTHER_CALL = 79,   /* the ticket isn't the chain's: a late answer. Undo what it counted */
    PK_OTHER_TABLE = 80,  /* the chain was popped with a table, and none is lent, or the other way
                             round; or the table moved the used index: lend the pop's table */
    /* 81 to 90: pk_restore takes nothing of this record. 89: an allocation failed; call later.
       90: the device has another page size or limit. */
    PK_RECORD_TRUNCATED = 81, PK_RECORD_BAD_MAGIC = 82, PK_RECORD_BAD_VERSION = 83,
    PK_RECORD_BAD_COUNT = 84, PK_RECORD_BAD_RESERVED = 85, PK_RECORD_BAD_QUEUE = 86,
    PK_RECORD_BAD_OPTIONS = 87, PK_RECORD_OUT_OF_MEMORY = 89, PK_RECORD_MISMATCH = 90,
    /* 96 to 110: a field of the device, a queue or a region is invalid. */
    PK_BAD_DEVICE = 96,          /* page_size or limit: begin with PK_DEVICE, not with zeros */
    PK_BAD_QUEUE_SIZE = 97,      /* size isn't a power of two up to 32768 */
    PK_BAD_QUEUE_ALIGNMENT = 98, /* desc isn't a multiple of 16, avail of 2, or used of 4 */
    PK_BAD_QUEUE_END = 99,       /* the descriptors or a ring end at 2^64 or later */
    PK_BAD_MAX_IN_FLIGHT = 100,  /* max_in_flight is above size */
    PK_BAD_EVENT_INDEX = 101,    /* event_index is above 1 */
    PK_BAD_QUEUE_STATE = 102,    /* fields that are the library's were changed: pk_queue_begin */
    PK_QUEUE_NOT_BEGUN = 103,    /* only of pops, and before 97 to 102: call pk_queue_begin first */
    PK_EMPTY_REGION = 104,       /* len is 0. 104 to 108 are of the first invalid region */
    PK_BAD_REGION_HOST = 105,    /* host isn't a multiple of 4096 */
    PK_BAD_REGION_GUEST = 106,   /* guest isn't a multiple of 4096 */
    PK_BAD_REGION_LEN = 107,     /* len isn't a multiple of 4096 */
    PK_BAD_REGION_END = 108,     /* guest + len or host + len is above 2^64 */
    PK_TOO_MANY_REGIONS = 109,   /* more than PK_REGIONS_MAX */
    PK_REGIONS_OVERLAP = 110,    /* two have a guest address in common */
};

/* Faults of a descriptor chain (2.7.5), which is pushed without a reply. ROOM: the reply buffer. */
enum pk_fault {
    PK_FAULT_NONE = 0, PK_FAULT_TOO_LONG = 1, PK_FAULT_NEXT_OUT_OF_TABLE = 2,
    PK_FAULT_ADDRESS_OVERFLOW = 3, PK_FAULT_INDIRECT_WITH_NEXT = 4, PK_FAULT_INDIRECT_NESTED = 5,
    PK_FAULT_INDIRECT_LENGTH = 6, PK_FAULT_TABLE_UNREACHABLE = 7, PK_FAULT_OVER_LIMIT = 8,
    PK_FAULT_REQUEST_UNREACHABLE = 9, PK_FAULT_ROOM_UNREACHABLE = 10,
};

/* A fault of the request (virtiofsd's Error): there is no file call and no reply. DECODE: it ends
 * early. ENCODE: the reply buffer is too short. NAME: no zero byte at a name's end, or a second. */
enum pk_request_fault {
    PK_REQUEST_DECODE = 1, PK_REQUEST_ENCODE = 2, PK_REQUEST_MISSING_PARAMETER = 4,
    PK_REQUEST_MISSING_EXTENSION = 5, PK_REQUEST_HEADER_LENGTH = 6, PK_REQUEST_NAME = 7,
    PK_REQUEST_XATTR_SIZE = 9,
};

/* The file calls. Beside each: its fields of struct pk_call -> the kind of answer on success. All
 * have `unique`; all but INIT, DESTROY and BATCH_FORGET have `node`; all but INIT and DESTROY have
 * `uid`, `gid` and `pid`. With FUSE_ALLOW_IDMAP (Linux 6.12 and later; always agreed on) uid and
 * gid are 0xffffffff, except in calls that make a node. These also have `group`, a supplementary
 * group, if `has_group`, and `label_name` and `label`, if `has_label` (FUSE_SECURITY_CTX). `handle`
 * is an open file's number (pk_reply_open). Node 1 is the root, which the guest knows without a
 * look-up. Not passed on: FATTR_LOCKOWNER, and the flags of COPY_FILE_RANGE. */
enum pk_call_kind {
    PK_CALL_NONE = 0,         /* -> none: it is answered already (unknown opcodes), or never */
    PK_CALL_LOOKUP = 1,       /* name -> entry */
    PK_CALL_FORGET = 2,       /* count (nlookup): node's look-up count falls by it -> none */
    PK_CALL_GETATTR = 3,      /* handle, if has_handle -> attr */
    PK_CALL_SETATTR = 4,      /* valid (FATTR_), attr, owner, handle, if has_handle -> attr */
    PK_CALL_READLINK = 5,     /* data_len -> data */
    PK_CALL_SYMLINK = 6,      /* name, value: where it leads; group, label -> entry */
    PK_CALL_MKNOD = 8,        /* name, mode, rdev, umask, group, label -> entry */
    PK_CALL_MKDIR = 9,        /* name, mode, umask, group, label -> entry */
    PK_CALL_UNLINK = 10, PK_CALL_RMDIR = 11, /* name -> done */
    PK_CALL_RENAME = 12,      /* also for RENAME2: name in node becomes name2 in node2; flags
                                 (RENAME_) -> done */
    PK_CALL_LINK = 13,        /* node gets the name in the directory node2 -> entry */
    PK_CALL_OPEN = 14,        /* flags (O_ of Linux x86), kill_priv -> open */
    PK_CALL_READ = 15,        /* handle, offset, data_len, size, flags, owner, has_owner -> data */
    PK_CALL_WRITE = 16,       /* handle, offset, size, data_at, data_len, flags, owner, has_owner,
                                 delayed, kill_priv -> write */
    PK_CALL_STATFS = 17,      /* -> statfs */
    PK_CALL_RELEASE = 18,     /* handle, flags, flush, unlock, owner, has_owner -> done */
    PK_CALL_FSYNC = 20, PK_CALL_FSYNCDIR = 30, /* handle, data_only -> done */
    PK_CALL_SETXATTR = 21,    /* name, value, flags, setxattr_flags -> done */
    PK_CALL_GETXATTR = 22,    /* name, size, data_len -> xattr if size is 0, else data */
    PK_CALL_LISTXATTR = 23,   /* size, data_len -> xattr if size is 0, else data */
    PK_CALL_REMOVEXATTR = 24, /* name -> done */
    PK_CALL_FLUSH = 25,       /* handle, owner -> done */
    PK_CALL_INIT = 26,        /* options that the guest supports; a new session begins -> init */
    PK_CALL_OPENDIR = 27,     /* flags -> open */
    PK_CALL_READDIR = 28,     /* handle, offset, size, data_len -> entries (pk_add_direntry) */
    PK_CALL_READDIRPLUS = 44, /* the same -> entries (pk_add_direntry_plus) */
    PK_CALL_RELEASEDIR = 29,  /* handle, flags -> done */
    PK_CALL_ACCESS = 34,      /* mode: R_OK, W_OK, X_OK -> done */
    PK_CALL_CREATE = 35,      /* name, mode, flags, umask, kill_priv, group, label -> create */
    PK_CALL_DESTROY = 38,     /* set the device's options to 0 -> done. No reply is sent */
    PK_CALL_BATCH_FORGET = 42, /* value: count pairs, read by pk_pair -> none */
    PK_CALL_FALLOCATE = 43,   /* handle, mode, offset, size -> done */
    PK_CALL_LSEEK = 46,       /* handle, offset, flags: whence -> lseek */
    PK_CALL_COPY_FILE_RANGE = 47, /* handle, offset, size; to node2, handle2, offset2 -> write */
    PK_CALL_SYNCFS = 50,      /* -> done */
};
/* The kinds of answers on success: PK_ANSWER_X needs pk_reply_x, DONE pk_reply_err(.., 0). NONE:
 * make the call, if there is one, and push. Each call that has a reply allows pk_reply_err. */
enum pk_answer_kind {
    PK_ANSWER_NONE = 0, PK_ANSWER_DONE = 1, PK_ANSWER_ENTRY = 2, PK_ANSWER_ATTR = 3,
    PK_ANSWER_OPEN = 4, PK_ANSWER_CREATE = 5, PK_ANSWER_DATA = 6, PK_ANSWER_XATTR = 7,
    PK_ANSWER_STATFS = 8, PK_ANSWER_WRITE = 9, PK_ANSWER_LSEEK = 10, PK_ANSWER_ENTRIES = 11,
    PK_ANSWER_INIT = 12,
};

uint32_t pk_version(void); /* the library's PK_VERSION: pk_is_compatible compares it */
/* What the library is, for logs: its release, its commit, and the logic that proved it or else
 * "NOT PROVED". The text stays. */
const char *pk_build(void);
/* Returns 1 if a name is one component of a path (POSIX.1-2017, 3.170 and 4.13), else 0: "", ".",
 * "..", or with a slash or a zero byte. Test each name of the guest before the host uses it. */
uint8_t pk_is_name(const uint8_t *name, size_t name_len) PK_RESULT;

/* ---------------------------------------------------------------- device and queues */
struct pk_device { /* the state that all queues share */
    uint32_t page_size; /* bytes: a power of two, 4096 to 65536 */
    uint32_t limit;     /* bytes of a request or a reply buffer, PK_REQUEST_MAX to 2^31 */
    uint64_t options;   /* FUSE_ bits agreed on by INIT (pk_reply_init); 0 at first and at reset */
};
#define PK_DEVICE {4096u, 0x101000u, 0u}

/* A queue. Zero it once. Set the addresses and the fields marked "yours" before pk_queue_begin. */
struct pk_queue {
    uint64_t desc, avail, used; /* guest addresses, aligned to 16, 2 and 4; all end below 2^64 */
    uint16_t size;          /* yours: descriptors, a power of two up to 32768 */
    uint16_t next_avail;    /* the next chain's number; GET_VRING_BASE's, if none is in flight */
    uint16_t next_used;     /* of the next to push: next_avail - next_used are in flight */
    uint16_t max_in_flight; /* yours: 1 to size; 0 counts as 1 */
    uint16_t stopped;       /* the status (2 to 8) that stopped it, 1 if pk_restore did, or 0 */
    uint8_t pushing;        /* 1 from pk_push to pk_pushed, else 0 */
    uint8_t event_index;    /* yours: 1 if VIRTIO_F_EVENT_IDX was agreed on, else 0 */
    uint32_t reset_count;   /* the number of its last reset: not 0, and that of no other of 2^32 - 1
                               in the process. By it and the addresses a chain knows its queue */
    uint32_t pop_count;     /* pops and drops, modulo 2^32 */
};

/* Resets a queue, also before its first pop: no chain of it is in flight, and it isn't stopped.
 * pk_restore does the same. `next_avail` is the number of SET_VRING_BASE, or 0. Pushes of earlier
 * chains are refused. Before DRIVER_OK neither pop nor store (2.1.2); then enable notifications: an
 * earlier device may have left them disabled. Errors: 97 to 101 (your fields are invalid). */
uint32_t pk_queue_begin(struct pk_queue *queue, uint16_t next_avail) PK_CHECK(1);

/* A region of the guest's memory: its guest address, its length in bytes, and its host address, to
 * which the library only adds. All three numbers are multiples of 4096. */
struct pk_region { uint64_t guest, len; uintptr_t host; };

/* ---------------------------------------------------------------- a chain: pop and drop */
/* A handle for one chain. Only the library reads or writes its fields. */
struct pk_chain { void *at; uint32_t state; };

/* The states of a handle, each with the call that comes next. */
enum pk_state {
    PK_STATE_NONE = 0,    /* pk_chain_set_memory: no memory was set */
    PK_STATE_FREE = 1,    /* pk_pop: it has no chain */
    PK_STATE_POPPING = 2, /* pk_pop, with the bytes of its load */
    PK_STATE_POPPED = 3,  /* pk_decode, or pk_reply_bytes */
    PK_STATE_DECODED = 4, /* pk_reply_*: its call is unanswered */
    PK_STATE_LISTING = 5, /* pk_add_direntry (or _plus), or pk_reply_*: a listing is unanswered */
    PK_STATE_REPLIED = 6, /* pk_push: its reply is known, or it gets none */
    PK_STATE_PUSHING = 7, /* pk_pushed */
};
uint32_t pk_chain_state(const struct pk_chain *chain) PK_CHECK(1); /* enum pk_state */

/* Copies the regions and the device's limit for the chain's next pops: at first, and for each chain
 * after each change of the guest's memory. The regions, up to PK_REGIONS_MAX in any order, aren't
 * empty, don't overlap and end at 2^64 at most.
 * Errors: PK_BAD_DEVICE; 104 to 108; PK_TOO_MANY_REGIONS; PK_REGIONS_OVERLAP; PK_OUT_OF_MEMORY;
 * PK_CHAIN_IN_FLIGHT (also while a pop is under way). */
uint32_t pk_chain_set_memory(struct pk_chain *chain, const struct pk_device *device,
                             const struct pk_region *regions, size_t region_count)
    PK_CHECK(1, 2) PK_READS(3, 4);

/* Frees the handle's memory, and zeroes it. Its chain is abandoned (pk_abandon). */
void pk_chain_free(struct pk_chain *chain) PK_NONNULL(1);

/* Sets the ticket of the chain's next pop. Each pop takes the next number, modulo 2^32. A new
 * handle begins at a number of its own: of the first n handles of a process, up to 10,000, no two
 * have a ticket in common in the first 2^32 / (3 * n) chains of each. So a handle refuses answers
 * to others' chains, and to those of a handle that was freed.
 * Errors: the usual; PK_CHAIN_IN_FLIGHT (or a pop is under way). */
uint32_t pk_chain_set_ticket(struct pk_chain *chain, uint32_t first) PK_CHECK(1);

/* The result of pk_pop: with PK_LOAD a load, with PK_DONE a chain. After an error it is the load
 * that the pop still needs, if there is one and the queue's fields are valid, else zeros. */
struct pk_pop_result {
    uintptr_t load_at;    /* host address */
    size_t load_len;      /* bytes, 1 to PK_LOAD_MAX */
    uint64_t request_len; /* bytes of the request; 0 with a fault */
    uint64_t reply_len;   /* bytes of the reply buffer; 0 with a fault */
    uint32_t fault;       /* enum pk_fault. 0: pk_decode comes next; else pk_push */
    uint16_t head;        /* the driver's number of the chain */
    uint32_t ticket;      /* names the chain in each answer */
    uint64_t miss_at, miss_len; /* with PK_MISS: the first I/O addresses that it lacks */
    uint32_t miss_access; /* and the access to them (enum pk_access) */
};

/* Pops the next available chain, by several calls: the first has `loaded_len` 0, and each after
 * PK_LOAD, at most 2 * size + 6, the bytes. PK_DONE: the chain is in flight. PK_IDLE, PK_MISS and
 * errors 1 to 8: the handle is free. PK_MISS leaves the queue as it was. Other errors leave the pop
 * under way: end it by pk_drop.
 * Two loads can be saved. For the first, the available index, you may pass the value that was
 * loaded last for this queue, by any thread, over the same memory and since the queue's reset, if
 * it isn't `next_avail`. Keep it with the queue, under its lock: an older value, such as a thread's
 * own, is refused and stops the queue (takes_newest). The second: a table's entry that lies in two
 * regions or mappings has a load for each part. If you have the whole entry, pass it for the first.
 * Errors: the usual; PK_WRONG_ORDER (the chain is in flight); PK_BAD_ARGUMENT (`loaded_len` isn't
 * the load's); PK_OTHER_QUEUE; PK_CHAIN_IN_FLIGHT; then, in no order, PK_OUT_OF_MEMORY, 1 to 8,
 * PK_NOT_MAPPED. */
uint32_t pk_pop(struct pk_chain *chain, struct pk_queue *queue, const uint8_t *loaded,
                size_t loaded_len, struct pk_pop_result *pop)
    PK_CHECK(1, 2, 5) PK_READS(3, 4) PK_FILLS(5);

/* A load that was made ahead of a pop: its host address, and how many bytes it has. */
struct pk_load_ahead { uintptr_t at; size_t len; };
/* Pops the next available chain in one call, by loads that you made ahead, under the queue's lock,
 * in the order in which a pop asks for them; `bytes` has their bytes, one load's after the
 * other's. It is as if pk_pop were called without bytes, and then with each load. A load is taken
 * only if its address and length are those that pk_pop would return next. At the first other one,
 * at the end of the list or of the bytes, at a part of an entry that lies in two regions or
 * mappings, or without room for a load's descriptors, the result is PK_LOAD: continue with pk_pop.
 * So any addresses and lengths are allowed, and a wrong one costs a call. Older bytes do what they
 * do with pk_pop: an older available index stops the queue. The list may have any length.
 * pk_pop_ring makes the loads, too: five at most.
 * Errors: the usual; PK_WRONG_ORDER (a pop is under way, or the chain in flight);
 * PK_CHAIN_IN_FLIGHT; 1 to 8, PK_NOT_MAPPED. */
uint32_t pk_pop_ahead(struct pk_chain *chain, struct pk_queue *queue,
                      const struct pk_load_ahead *ahead, size_t ahead_count, const uint8_t *bytes,
                      size_t bytes_len, struct pk_pop_result *pop)
    PK_CHECK(1, 2, 7) PK_READS(3, 4) PK_READS(5, 6) PK_FILLS(7);

/* Undoes a pop whose chain wasn't decoded: the queue's next pop returns the chain again. Or ends a
 * pop that is under way in the handle; then `queue` may be another one.
 * Errors: 97 to 102 (the queue); PK_WRONG_ORDER (it was decoded, or has a fault); PK_OTHER_QUEUE;
 * PK_WRONG_ORDER (another chain was popped later: drop that one first). */
uint32_t pk_drop(struct pk_chain *chain, struct pk_queue *queue) PK_NONNULL(1, 2);

/* Frees the handle for another pop, in any state. Its chain is never pushed: the queue counts it as
 * in flight until a reset. Between pk_push and pk_pushed, no other chain is pushed until then. */
void pk_abandon(struct pk_chain *chain) PK_NONNULL(1);

/* A piece of memory, laid out as struct iovec: cast an array of it for preadv and the like. */
struct pk_window { uintptr_t at; size_t len; };
/* A range of guest addresses; of I/O addresses, if the chain was popped with a table. */
struct pk_range { uint64_t guest, len; };
/* Three functions find `len` bytes of a chain's request or reply buffer, from byte `from` on: their
 * windows, or guest ranges for a migration's log. Each returns how many it filled: 0 past the end,
 * or if no chain is in flight. A window ends with its descriptor, region or mapping, a range with
 * its descriptor. Each call goes through all descriptors, so ask for many windows at once. If they
 * cover fewer than `len` bytes, call again from there. */
size_t pk_request_windows(struct pk_chain *chain, uint64_t from, uint64_t len,
                          struct pk_window *windows, size_t window_count)
    PK_NONNULL(1) PK_WRITES(4, 5);
size_t pk_reply_windows(struct pk_chain *chain, uint64_t from, uint64_t len,
                        struct pk_window *windows, size_t window_count)
    PK_NONNULL(1) PK_WRITES(4, 5);
size_t pk_reply_ranges(struct pk_chain *chain, uint64_t from, uint64_t len, struct pk_range *ranges,
                       size_t range_count) PK_NONNULL(1) PK_WRITES(4, 5);

/* ---------------------------------------------------------------- an IOMMU's table */
/* A slot for a table that maps I/O addresses to guest physical ones. One table serves all chains,
 * under your lock. Lend it (pk_chain_exchange_iotlb) before a pop's first call, and take it back
 * once you have read the chain's windows. Lend it around pk_push and pk_set_notification, too. Keep
 * the mappings of a queue's rings while chains are in flight (PK_OTHER_TABLE). Once a chain had a
 * table, its addresses are I/O addresses until pk_chain_set_memory, and while the table isn't lent,
 * none is mapped. Before, they are guest physical. pk_chain_set_memory and pk_chain_free free a
 * chain's table. */
struct pk_iotlb { void *at; uint32_t full; };
enum pk_access { /* VHOST_ACCESS_ of linux/vhost_types.h */
    PK_ACCESS_NONE = 0, PK_ACCESS_READ = 1, PK_ACCESS_WRITE = 2, PK_ACCESS_READ_WRITE = 3 };

/* Puts an empty table into the slot. Errors: PK_OUT_OF_MEMORY (only if the slot is zeros). */
uint32_t pk_iotlb_new(struct pk_iotlb *iotlb) PK_CHECK(1);
/* Frees the slot with its table, and zeroes it. */
void pk_iotlb_free(struct pk_iotlb *iotlb) PK_NONNULL(1);

/* Maps `len` I/O addresses; earlier mappings of them end. With PK_ACCESS_NONE they are refused: a
 * pop that needs them returns 2 to 8, or a fault, and no miss. Unmap them after that pop. The last
 * page of addresses can't be mapped, and is refused in the same way.
 * Errors: the usual; PK_BAD_ARGUMENT (not an access); PK_WRONG_ORDER (the table is lent);
 * PK_BAD_ARGUMENT (not multiples of 4096; `len` is 0; an end above 2^64 - 1); PK_OUT_OF_MEMORY. */
uint32_t pk_iotlb_map(struct pk_iotlb *iotlb, uint64_t iova, uint64_t len, uint64_t guest,
                      uint32_t access) PK_CHECK(1);
/* Removes the mappings of `len` I/O addresses, which end at 2^64 at most.
 * Errors: PK_WRONG_ORDER (no table is here); PK_BAD_ARGUMENT (not multiples of 4096; `len` is 0; an
 * end above 2^64); PK_OUT_OF_MEMORY (only if a mapping continues after them). */
uint32_t pk_iotlb_unmap(struct pk_iotlb *iotlb, uint64_t iova, uint64_t len) PK_CHECK(1);
/* Exchanges the tables of chain and slot; each may have none. It allocates nothing.
 * Errors: the usual; PK_CHAIN_IN_FLIGHT (a pop is under way: one table holds for all of it). */
uint32_t pk_chain_exchange_iotlb(struct pk_chain *chain, struct pk_iotlb *iotlb) PK_CHECK(1, 2);

/* I/O addresses that the table doesn't map, and the access that is needed (enum pk_access). */
struct pk_miss { uint64_t at, len; uint32_t access; };
/* After PK_MISS, before you take the table back: finds the first I/O addresses that the buffer of
 * descriptor `index` lacks, at or after address `from`. Ask for each index from 0 on: first with
 * `from` 0, then with the end of the miss.
 * PK_MISS: filled. PK_DONE: nothing is missing from there on. PK_IDLE: no such descriptor was read.
 * Errors: the usual. */
uint32_t pk_find_miss(struct pk_chain *chain, size_t index, uint64_t from, struct pk_miss *miss)
    PK_CHECK(1, 4) PK_FILLS(4);

/* Returns 1 if the buffers of the chain in flight use one of `len` I/O addresses, else 0. */
uint8_t pk_uses(struct pk_chain *chain, uint64_t iova, uint64_t len) PK_CHECK(1);

/* ---------------------------------------------------------------- decode */
/* Bytes of the request, by their offset. A name has no zero byte, and one follows it. */
struct pk_span { uint32_t at, len; };
/* struct fuse_attr; with SETATTR, the values to set. */
struct pk_attr {
    uint64_t ino, size, blocks, atime, mtime, ctime; /* bytes; 512-byte units; seconds since 1970 */
    uint32_t atime_nanos, mtime_nanos, ctime_nanos;  /* below 10^9 */
    uint32_t mode;       /* type (S_IFMT) and permissions. SETATTR: use & 07777 of it */
    uint32_t nlink, uid, gid;
    uint32_t rdev;       /* minor & 0xff | major << 8 | (minor & ~0xff) << 12, as Linux's */
    uint32_t block_size; /* bytes */
    uint32_t flags;      /* FUSE_ATTR_ bits */
};

/* A file call, with the fields that enum pk_call_kind lists; the others are 0. A uint8_t is 0 or 1;
 * flags are those of linux/fuse.h. The guest may send any node, handle, offset and size, also
 * before INIT: a node that it doesn't hold, a file that isn't open. */
struct pk_call {
    uint32_t kind;   /* enum pk_call_kind */
    uint32_t answer; /* enum pk_answer_kind */
    uint32_t opcode; /* the guest's, also without a call */
    uint32_t fault;  /* enum pk_request_fault, or 0 */
    uint64_t unique; /* the guest's number of the request */
    uint32_t uid, gid, pid;
    uint32_t needed; /* with PK_MORE: bytes of the request, from its start */
    uint64_t node, handle, offset, size, owner, options, count; /* options: flags | flags2 << 32 */
    uint64_t node2, handle2, offset2;
    struct pk_span name, name2, value;
    uint64_t data_at, data_len; /* WRITE: the data in the request. Answers of data and entries: room
                                   in the reply buffer. READ, WRITE: use `size` if that is less */
    uint32_t flags, mode, umask, rdev, valid; /* mode: with its type; umask is applied already,
                                                 unless FUSE_DONT_MASK was agreed on */
    uint8_t has_handle, has_owner, delayed, kill_priv, flush, unlock, data_only, has_group;
    struct pk_attr attr;
    uint32_t group;
    uint32_t ticket; /* pass it with each answer */
    struct pk_span label_name, label; /* an extended attribute: its name, and its value */
    uint32_t setxattr_flags; /* FUSE_SETXATTR_ bits; 0 unless FUSE_SETXATTR_EXT was agreed on */
    uint8_t has_label;
};

/* Decodes a request from its first PK_FIRST bytes, or from all if it is shorter. After PK_MORE load
 * more, and pass its first `needed` bytes. A buffer of the device's limit holds every request; the
 * data of a WRITE stays in guest memory. It never returns PK_OUT_OF_MEMORY.
 * Errors: the usual; PK_WRONG_ORDER (no chain, a faulty or a decoded one); PK_BAD_ARGUMENT (too
 * many bytes). */
uint32_t pk_decode(struct pk_chain *chain, const struct pk_device *device, const uint8_t *request,
                   size_t request_len, struct pk_call *call)
    PK_CHECK(1, 2, 5) PK_READS(3, 4) PK_FILLS(5);

/* ---------------------------------------------------------------- reply */
/* struct fuse_entry_out. Node 0: the name is known not to exist. */
struct pk_entry {
    uint64_t node, generation;
    uint64_t entry_secs, attr_secs;   /* how long the guest may keep the name and the attributes */
    uint32_t entry_nanos, attr_nanos; /* below 10^9 */
    struct pk_attr attr;
};
struct pk_statfs { /* struct fuse_kstatfs */
    uint64_t blocks, bfree, bavail, files, ffree; /* blocks of frsize bytes; files are nodes */
    uint32_t bsize, namelen, frsize;              /* bytes */
};

/* Each answers the chain's call once; pk_push returns the reply. The ticket names the call, so a
 * late answer is refused. They never return PK_OUT_OF_MEMORY. Errors, after which the call is still
 * unanswered: PK_BAD_ARGUMENT (nanoseconds of 10^9 or more; an invalid errno); PK_WRONG_ORDER (no
 * call is unanswered); PK_OTHER_CALL; PK_OTHER_KIND; the function's own. */

/* Any call: an errno of Linux, 1 to 4095, or 0 if `answer` is DONE. It may return PK_ENTRIES. */
uint32_t pk_reply_err(struct pk_chain *chain, uint32_t ticket, uint32_t error) PK_CHECK(1);
/* LOOKUP, SYMLINK, MKNOD, MKDIR, LINK: the node's look-up count grows by 1. */
uint32_t pk_reply_entry(struct pk_chain *chain, uint32_t ticket, const struct pk_entry *entry)
    PK_CHECK(1, 3);
/* CREATE: an entry, and an open file. */
uint32_t pk_reply_create(struct pk_chain *chain, uint32_t ticket, const struct pk_entry *entry,
                         uint64_t handle, uint32_t open_flags) PK_CHECK(1, 3);
/* GETATTR, SETATTR: the guest may keep the attributes for secs and nanos. */
uint32_t pk_reply_attr(struct pk_chain *chain, uint32_t ticket, const struct pk_attr *attr,
                       uint64_t secs, uint32_t nanos) PK_CHECK(1, 3);
/* OPEN, OPENDIR: `handle` is your number, which the guest passes to READ etc. open_flags: FOPEN_ */
uint32_t pk_reply_open(struct pk_chain *chain, uint32_t ticket, uint64_t handle,
                       uint32_t open_flags) PK_CHECK(1);
/* READ, READLINK, GETXATTR, LISTXATTR: `len` bytes of data in the reply buffer from PK_HEADER on
 * (READ: at most data_len of the call, else PK_LONG_REPLY). Put them there (pk_reply_windows)
 * before the used index is stored. */
uint32_t pk_reply_data(struct pk_chain *chain, uint32_t ticket, uint64_t len) PK_CHECK(1);
/* GETXATTR and LISTXATTR with size 0: the length of the value or list, in bytes. WRITE and
 * COPY_FILE_RANGE: the bytes that were written. STATFS. LSEEK: the offset, in bytes. */
uint32_t pk_reply_xattr(struct pk_chain *chain, uint32_t ticket, uint32_t len) PK_CHECK(1);
uint32_t pk_reply_write(struct pk_chain *chain, uint32_t ticket, uint32_t count) PK_CHECK(1);
uint32_t pk_reply_statfs(struct pk_chain *chain, uint32_t ticket, const struct pk_statfs *statfs)
    PK_CHECK(1, 3);
uint32_t pk_reply_lseek(struct pk_chain *chain, uint32_t ticket, uint64_t offset) PK_CHECK(1);
/* INIT: `wanted` are options (FUSE_ bits) to agree on, if the guest supports them, besides the
 * server's own: ASYNC_READ, ATOMIC_O_TRUNC, BIG_WRITES, HAS_IOCTL_DIR, AUTO_INVAL_DATA, ASYNC_DIO,
 * PARALLEL_DIROPS, MAX_PAGES, SUBMOUNTS, INIT_EXT, CREATE_SUPP_GROUP, ALLOW_IDMAP. So a guest sends
 * READDIRPLUS only if FUSE_DO_READDIRPLUS is wanted. Sets device->options. The rest of struct
 * fuse_init_out is virtiofsd's: 7.38, the guest's max_readahead, max_background 65535, max_write
 * 0x100000, congestion_threshold 49149, time_gran 1, max_pages 0xfffff / page_size + 1. */
uint32_t pk_reply_init(struct pk_chain *chain, uint32_t ticket, struct pk_device *device,
                       uint64_t wanted) PK_CHECK(1, 3);

/* READDIR: appends an entry to `list`, a buffer of yours of `list_len` bytes, the same one for all
 * entries of the reply. The library counts the bytes that they take (pk_direntry_len), data_len at
 * most. `next_offset` is the offset of the READDIR that continues after this entry; `type` is DT_
 * of dirent.h. Returns PK_DONE, PK_FULL or PK_LIST_FAILS.
 * Errors: PK_BAD_ARGUMENT (the name is empty, has a slash or is longer than 255 bytes; the type
 * isn't DT_UNKNOWN, FIFO, CHR, DIR, BLK, REG, LNK or SOCK); PK_WRONG_ORDER; PK_OTHER_CALL;
 * PK_BAD_ARGUMENT (list_len isn't that of the earlier entries); PK_OTHER_KIND; PK_SHORT_BUFFER (the
 * buffer ends before the entry: reply with the list, if it has entries). */
uint32_t pk_add_direntry(struct pk_chain *chain, uint32_t ticket, uint8_t *list, size_t list_len,
                         const uint8_t *name, size_t name_len, uint64_t ino, uint64_t next_offset,
                         uint32_t type) PK_CHECK(1) PK_READS(5, 6);

/* READDIRPLUS: the same with an entry, whose node the guest then holds once more. "." and ".." have
 * node 0. Type and ino are the attributes'. After any status but PK_DONE undo the look-up, of
 * node 0 too. Errors: as pk_add_direntry; PK_BAD_ARGUMENT also for nanoseconds of 10^9 or more. */
uint32_t pk_add_direntry_plus(struct pk_chain *chain, uint32_t ticket, uint8_t *list,
                              size_t list_len, const uint8_t *name, size_t name_len,
                              const struct pk_entry *entry, uint64_t next_offset)
    PK_CHECK(1, 7) PK_READS(5, 6);

/* READDIR, READDIRPLUS: replies with the entries so far; a reply without any is the end of the
 * directory. Copy the first `*len` bytes of the list into the reply buffer from PK_HEADER on. */
uint32_t pk_reply_entries(struct pk_chain *chain, uint32_t ticket, uint64_t *len)
    PK_CHECK(1, 3) PK_FILLS(3);

/* Replies with `len` bytes of your own (with struct fuse_out_header), in place of a call's answer,
 * or of pk_decode; 0 is no reply. Put them into the reply buffer, from 0 on, before the used index
 * is stored. So a FUSE server of yours may serve any request (opcode at byte 4, `unique` at 8). You
 * then account for the guest's nodes, also those of pk_add_direntry_plus that your bytes leave out,
 * and set device->options after INIT. pk_push returns no front, and `len` for the used element.
 * Errors: PK_WRONG_ORDER (no chain, a faulty one, or one with a reply); PK_OTHER_CALL;
 * PK_LONG_REPLY. */
uint32_t pk_reply_bytes(struct pk_chain *chain, uint32_t ticket, uint64_t len) PK_CHECK(1);

/* ---------------------------------------------------------------- push */
/* The stores of a push, then its load, of little-endian numbers (rule 4; VIRTIO 1.2, 2.7.8, 2.7.7).
 * The reply has `len` bytes: the front, and after it the `len - front_len` bytes of data, of each
 * kind of reply; both are 0 without a reply. */
struct pk_stores {
    size_t front_len;        /* bytes of `front`, for the start of the reply buffer; may be 0 */
    uintptr_t id_at, len_at; /* host addresses of the used element's halves, 4 bytes each */
    uint32_t id, len;        /* and their values */
    uintptr_t index_at;      /* host address of the used index, 2 bytes */
    uint16_t index;          /* and its value */
    uintptr_t seen_at;       /* host address of the available flags, or of used_event, 2 bytes */
    uint64_t element_guest;  /* guest address of the element's 8 bytes, for a migration's log */
    uint64_t index_guest;    /* and of the index's 2. I/O addresses, if the chain has a table */
};

/* Returns the stores that add the chain to the used ring, after the chains pushed before.
 * Errors: the usual; PK_WRONG_ORDER (its call is unanswered, or it is pushed already);
 * PK_OTHER_QUEUE; PK_PUSHING; PK_OTHER_TABLE (the chain is still in flight); PK_SHORT_BUFFER
 * (PK_FRONT_MAX bytes are enough); PK_NOT_MAPPED (the push is under way then: reset the queue). */
uint32_t pk_push(struct pk_chain *chain, struct pk_queue *queue, uint8_t *front, size_t front_len,
                 struct pk_stores *stores) PK_CHECK(1, 2, 5) PK_WRITES(3, 4) PK_FILLS(5);

/* Ends the push once the stores are made: the handle is free. `seen` is the number that you loaded
 * at seen_at. `*notify` is 1 if the driver is to be notified, else 0.
 * Errors: the usual; PK_WRONG_ORDER (no push is under way); PK_OTHER_QUEUE. */
uint32_t pk_pushed(struct pk_chain *chain, struct pk_queue *queue, uint16_t seen, uint8_t *notify)
    PK_CHECK(1, 2, 4) PK_FILLS(4);

/* ---------------------------------------------------------------- notifications of the driver */
/* A store of 2 bytes at a host address, or none (`len` 0). */
struct pk_store { uintptr_t at; uint16_t value; uint8_t len; };
/* Returns the store that enables (1) or disables (0) available buffer notifications (VIRTIO 1.2,
 * 2.7.10). It is to the used ring's flags at guest address `used`, or with event_index to
 * avail_event at used + 4 + 8 * size. With event_index nothing is stored to disable them. It uses
 * the chain's regions and table. Errors: the usual; PK_NOT_MAPPED (map the bytes, call again). */
uint32_t pk_set_notification(struct pk_chain *chain, const struct pk_queue *queue, uint32_t enabled,
                             struct pk_store *store) PK_CHECK(1, 2, 4) PK_FILLS(4);

/* ---------------------------------------------------------------- save and restore */
/* Writes the record of device and queues to the front of `buffer`: addresses, sizes, next_avail,
 * stopped or not, options, page size and limit. `*len` is its length, also with PK_SHORT_BUFFER,
 * and 0 after other errors.
 * Errors: PK_BAD_DEVICE; PK_BAD_ARGUMENT (unknown options, or not 1 to PK_QUEUES_MAX queues); of
 * the first queue that has one, 97 to 102 or PK_CHAIN_IN_FLIGHT; PK_OUT_OF_MEMORY;
 * PK_SHORT_BUFFER. */
uint32_t pk_save(const struct pk_device *device, const struct pk_queue *queues, size_t queue_count,
                 uint8_t *buffer, size_t buffer_len, size_t *len)
    PK_CHECK(1, 6) PK_READS(2, 3) PK_WRITES(4, 5) PK_FILLS(6);

/* Reads a record at the front of `saved` into device->options and the first `*count` queues, and
 * resets these. Before the call set page size and limit, which must be the record's, and of each
 * queue event_index and max_in_flight, which the record doesn't have. After an error device and
 * queues are unchanged.
 * Errors: PK_BAD_DEVICE; 81 to 90, in the order of the record's parts; PK_SHORT_BUFFER (too few
 * queues: `*count` is how many the record has); PK_BAD_MAX_IN_FLIGHT or PK_BAD_EVENT_INDEX (of the
 * first queue that has one: max_in_flight is above its size in the record). */
uint32_t pk_restore(struct pk_device *device, struct pk_queue *queues, size_t queue_count,
                    const uint8_t *saved, size_t saved_len, size_t *count)
    PK_CHECK(1, 6) PK_WRITES(2, 3) PK_READS(4, 5) PK_FILLS(6);

#ifdef __cplusplus
}
#endif
#include "pitskhomu_names.h" /* pk_pair, pk_direntry_len, names of numbers for logs */
#include "pitskhomu_ring.h" /* GCC, Clang: pk_pop_ring, a pop with its loads, by one call */
#endif
