/* pitskhomu_ring.h: a pop and a push in one call each, over regions that are mapped in this
 * process. pitskhomu.h includes it for GCC and Clang. Inline functions: tested, not proved.
 * With -fsanitize=thread GCC warns of the barriers: add -Wno-tsan. If the driver runs in the same
 * process, the sanitizer may report a race with pk_ring_load. It also loads descriptors that lie
 * after the chain's, and that the driver may be writing: the library ignores these. */
#if defined(__GNUC__) && !defined(PITSKHOMU_RING_H)
#define PITSKHOMU_RING_H

/* Where a queue's rings lie in host memory. Zero it before its first use, keep it with the queue
 * under the same lock, and call pk_ring_find after each change of regions, addresses or size.
 * Behind an IOMMU's table pass its mappings in place of the regions: the `guest` of each is an I/O
 * address then. Call pk_ring_find after each change of them, too. With zeros a pop takes a call for
 * each load. */
struct pk_ring {
    uintptr_t desc, avail;           /* host addresses, or 0 */
    const struct pk_region *regions; /* yours, or the mappings: they have to live as long */
    size_t count;
    uint32_t reset_count; /* of the queue, as `index` was loaded */
    uint16_t size;        /* of the queue, as the rings were found */
    uint16_t index;       /* the available index that was loaded last */
    uint16_t has_index;   /* 0: load it. Set it to 0 after you loaded it otherwise (by pk_pop, or to
                             compare it with next_avail), since an older index stops the queue */
};

/* The loads of a pop, made ahead. */
struct pk_ring_loads {
    struct pk_load_ahead ahead[5];
    size_t count, len;
    uint8_t bytes[4 + 64 + PK_LOAD_MAX];
};

/* The host address of bytes that lie in one region, or 0. */
static inline uintptr_t pk_ring_host(const struct pk_region *regions, size_t count, uint64_t guest,
                                     uint64_t len) {
    for (size_t k = 0; k < count; k++) {
        uint64_t at = guest - regions[k].guest;
        if (guest >= regions[k].guest && at < regions[k].len && len <= regions[k].len - at)
            return regions[k].host + (uintptr_t)at;
    }
    return 0;
}

/* Finds a queue's rings among these regions, or mappings. */
static inline void pk_ring_find(struct pk_ring *ring, const struct pk_queue *queue,
                                const struct pk_region *regions, size_t count) {
    ring->desc = pk_ring_host(regions, count, queue->desc, 16u * (uint64_t)queue->size);
    ring->avail = pk_ring_host(regions, count, queue->avail, 6u + 2u * (uint64_t)queue->size);
    ring->regions = regions;
    ring->count = count;
    ring->size = queue->size;
    ring->has_index = 0;
}

/* A load of a pop: two bytes are a number of the ring, and loaded at once; others are loaded once
 * each: without the fence the compiler might load a guest's byte again. */
static inline void pk_ring_load(void *to, uintptr_t at, size_t len) {
    uint16_t two;
    if (len == 2) {
        two = __atomic_load_n((const uint16_t *)at, __ATOMIC_ACQUIRE);
        __builtin_memcpy(to, &two, 2);
    } else {
        __builtin_memcpy(to, (const void *)at, len);
        __atomic_signal_fence(__ATOMIC_SEQ_CST);
    }
}

/* Follows a chain from entry `*k` of a stretch of `n`, which begins at `first` of its table.
 * Returns how many of its entries the chain has; the last one is at `*k`. */
static inline size_t pk_ring_follow(const uint8_t *bytes, size_t first, size_t n, size_t *k) {
    uint16_t flags, next;
    for (size_t walked = 1;; walked++) {
        __builtin_memcpy(&flags, bytes + 16 * *k + 12, 2);
        __builtin_memcpy(&next, bytes + 16 * *k + 14, 2);
        if ((flags & 5) != 1 || next < first || next - first >= n || walked == n) return walked;
        *k = next - first;
    }
}

/* Adds the loads of a chain's descriptors, from its head on: the bytes of each say where the next
 * lies. */
static inline void pk_ring_chain(const struct pk_ring *ring, uint16_t size, uint16_t head,
                                 struct pk_ring_loads *loads) {
    size_t index = head, end = size, left = size, most = 4, count = 2, used = 4;
    uintptr_t table = ring->desc;
    while (index < end && count < 5) {
        size_t n = end - index < most ? end - index : most, k = 0;
        uint8_t *bytes = loads->bytes + used;
        if (n > left) n = left;
        if (16 * n > sizeof loads->bytes - used) return;
        loads->ahead[count].at = table + 16 * index;
        loads->ahead[count].len = 16 * n;
        if (n == 4)
            pk_ring_load(bytes, table + 16 * index, 64);
        else
            pk_ring_load(bytes, table + 16 * index, 16 * n);
        loads->count = ++count;
        loads->len = used += 16 * n;
        if (most == 256 && n == end) return; /* the whole table */
        size_t walked = pk_ring_follow(bytes, index, n, &k);
        uint64_t guest;
        uint32_t len;
        uint16_t flags, next;
        __builtin_memcpy(&flags, bytes + 16 * k + 12, 2);
        if (!(flags & 5)) return; /* the last one */
        __builtin_memcpy(&guest, bytes + 16 * k, 8);
        __builtin_memcpy(&len, bytes + 16 * k + 8, 4);
        __builtin_memcpy(&next, bytes + 16 * k + 14, 2);
        if ((flags & 5) == 4 && table == ring->desc && len % 16 == 0 && len <= PK_LOAD_MAX) {
            table = pk_ring_host(ring->regions, ring->count, guest, len);
            if (!table) return;
            index = 0, end = len / 16, most = 256, left -= walked - 1;
        } else if ((flags & 5) == 1 && left > walked) {
            index = next, left -= walked;
        } else {
            return;
        }
    }
}

/* Makes the loads of the next pop ahead. An index that was loaded before is used again while a
 * chain before it wasn't popped: the driver stored those chains before that load. */
static inline void pk_ring_guess(const struct pk_queue *queue, struct pk_ring *ring,
                                 struct pk_ring_loads *loads) {
    uint16_t head, size = queue->size, next = queue->next_avail, offered = ring->index;
    uintptr_t avail = ring->avail, entry = avail + 4 + 2 * (next & (size - 1u));
    loads->count = loads->len = 0;
    if (!ring->desc || !avail || size == 0 || size != ring->size) return;
    if (!ring->has_index || ring->reset_count != queue->reset_count || offered == next) {
        pk_ring_load(&offered, avail + 2, 2);
        ring->index = offered;
        ring->reset_count = queue->reset_count;
        ring->has_index = 1;
    }
    loads->ahead[0].at = avail + 2;
    loads->ahead[0].len = 2;
    __builtin_memcpy(loads->bytes, &offered, 2);
    loads->count = 1;
    loads->len = 2;
    if (offered == next) return;
    pk_ring_load(&head, entry, 2);
    loads->ahead[1].at = entry;
    loads->ahead[1].len = 2;
    __builtin_memcpy(loads->bytes + 2, &head, 2);
    loads->count = 2;
    loads->len = 4;
    if (head < size) pk_ring_chain(ring, size, head, loads);
}

/* Pops the next available chain, with its loads: pk_pop_ahead, and pk_pop for what is left. Returns
 * any status of pk_pop but PK_LOAD. The first pop after PK_IDLE loads the available index again. An
 * error that leaves the pop under way (as PK_OUT_OF_MEMORY): call pk_drop before the next one. */
static inline uint32_t pk_pop_ring(struct pk_chain *chain, struct pk_queue *queue,
                                   struct pk_ring *ring, struct pk_pop_result *pop) {
    struct pk_ring_loads loads;
    pk_ring_guess(queue, ring, &loads);
    uint32_t status =
        pk_pop_ahead(chain, queue, loads.ahead, loads.count, loads.bytes, loads.len, pop);
    while (status == PK_LOAD) {
        ring->has_index = 0; /* the pop may go by a later one */
        pk_ring_load(loads.bytes, pop->load_at, pop->load_len);
        status = pk_pop(chain, queue, loads.bytes, pop->load_len, pop);
    }
    return status;
}

/* Whether a chain is, or may be, available after the last pop: by the index that was loaded last,
 * or it is loaded again. Returns 1, or 0. */
static inline int pk_look_ring(const struct pk_queue *queue, struct pk_ring *ring) {
    if (!ring->avail || ring->size != queue->size) return 1;
    if (!ring->has_index || ring->reset_count != queue->reset_count ||
        ring->index == queue->next_avail) {
        pk_ring_load(&ring->index, ring->avail + 2, 2);
        ring->reset_count = queue->reset_count;
        ring->has_index = 1;
    }
    return ring->index != queue->next_avail;
}

/* Logs a store of `len` bytes at a host address, during a migration. */
typedef void pk_mark(void *log, uintptr_t at, uint64_t len);

/* Copies a reply's front into the reply buffer, if there is one, and marks the first `len` bytes of
 * the buffer. */
static inline void pk_ring_reply(struct pk_chain *chain, const uint8_t *front, uint64_t len,
                                 pk_mark *mark, void *log) {
    struct pk_window windows[16];
    size_t count;
    for (uint64_t from = 0; from < len;) {
        if (!(count = pk_reply_windows(chain, from, len - from, windows, 16))) return;
        for (size_t k = 0; k < count; from += windows[k].len, k++)
            if (front)
                __builtin_memcpy((void *)windows[k].at, front + from, windows[k].len);
            else
                mark(log, windows[k].at, windows[k].len);
    }
}

/* Pushes a chain, with its stores in the order of rule 4, and the barrier. `mark` logs each store,
 * or is NULL. Data that isn't part of the reply you mark yourself. Returns a status of pk_push or
 * pk_pushed, and `*notify` as pk_pushed does. */
static inline uint32_t pk_push_ring(struct pk_chain *chain, struct pk_queue *queue, pk_mark *mark,
                                    void *log, uint8_t *notify) {
    uint8_t front[PK_FRONT_MAX];
    struct pk_stores stores;
    uint16_t seen;
    uint32_t status = pk_push(chain, queue, front, sizeof front, &stores);
    *notify = 0;
    if (status != PK_DONE) return status;
    pk_ring_reply(chain, front, stores.front_len, mark, log);
    __atomic_store_n((uint32_t *)stores.id_at, stores.id, __ATOMIC_RELAXED);
    __atomic_store_n((uint32_t *)stores.len_at, stores.len, __ATOMIC_RELAXED);
    __atomic_store_n((uint16_t *)stores.index_at, stores.index, __ATOMIC_RELEASE);
    if (mark) {
        pk_ring_reply(chain, (const uint8_t *)0, stores.len, mark, log);
        mark(log, stores.id_at, 4);
        mark(log, stores.len_at, 4);
        mark(log, stores.index_at, 2);
    }
    /* else `seen` might be loaded before the driver sees the index, and a notification is lost */
    __atomic_thread_fence(__ATOMIC_SEQ_CST);
    pk_ring_load(&seen, stores.seen_at, 2);
    return pk_pushed(chain, queue, seen, notify);
}

/* Enables or disables available buffer notifications: pk_set_notification, its store, and a full
 * barrier. Returns its status; with event_index nothing is stored to disable them. */
static inline uint32_t pk_notify_ring(struct pk_chain *chain, const struct pk_queue *queue,
                                      uint32_t enabled, pk_mark *mark, void *log) {
    struct pk_store store;
    uint32_t status = pk_set_notification(chain, queue, enabled, &store);
    if (status != PK_DONE || store.len == 0) return status;
    __atomic_store_n((uint16_t *)store.at, store.value, __ATOMIC_RELAXED);
    if (mark) mark(log, store.at, store.len);
    __atomic_thread_fence(__ATOMIC_SEQ_CST);
    return PK_DONE;
}
#endif
