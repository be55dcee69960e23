/* pitskhomu_names.h: inline functions of pitskhomu.h, which includes it; its structs' layout. */
#ifndef PITSKHOMU_NAMES_H
#define PITSKHOMU_NAMES_H
/* Returns 1 if the library that is linked has all that this header declares, else 0: their major
 * numbers are the same, and the library's minor number isn't less. */
static inline int pk_is_compatible(void) {
    uint32_t version = pk_version();
    return version >> 16 == PK_VERSION >> 16 && version >= PK_VERSION;
}

/* Fills in pair `k` of BATCH_FORGET, below call->count: `*node`, whose look-up count falls by
 * `*count`. */
static inline void pk_pair(const uint8_t *request, const struct pk_call *call, uint64_t k,
                           uint64_t *node, uint64_t *count) {
    const uint8_t *p = request + call->value.at + 16 * k;
    *node = *count = 0;
    for (int i = 7; i >= 0; i--) {
        *node = *node << 8 | p[i];
        *count = *count << 8 | p[8 + i];
    }
}

/* Returns how many bytes of data_len an entry needs; `plus` is 1 with READDIRPLUS, else 0. */
static inline uint64_t pk_direntry_len(size_t name_len, int plus) {
    return ((plus ? 152u : 24u) + (uint64_t)name_len + 7) & ~(uint64_t)7;
}

/* The names of statuses, faults and kinds of calls, for logs. "": the number has no name. */
static inline const char *pk_status_name(uint32_t status) {
#define PK_NAME(name) case name: return #name
    switch (status) {
    PK_NAME(PK_DONE); PK_NAME(PK_STOPPED); PK_NAME(PK_AVAIL_INDEX_UNREACHABLE);
    PK_NAME(PK_AVAIL_TOO_FAR); PK_NAME(PK_RING_ENTRY_UNREACHABLE); PK_NAME(PK_HEAD_OUT_OF_TABLE);
    PK_NAME(PK_USED_UNREACHABLE); PK_NAME(PK_AVAIL_FLAGS_UNREACHABLE);
    PK_NAME(PK_DESCRIPTOR_UNREACHABLE); PK_NAME(PK_OUT_OF_MEMORY); PK_NAME(PK_LOAD);
    PK_NAME(PK_IDLE); PK_NAME(PK_MORE); PK_NAME(PK_NO_ROOM); PK_NAME(PK_FULL);
    PK_NAME(PK_LIST_FAILS); PK_NAME(PK_ENTRIES); PK_NAME(PK_MISS); PK_NAME(PK_BAD_ARGUMENT);
    PK_NAME(PK_SHORT_BUFFER);
    PK_NAME(PK_LONG_REPLY); PK_NAME(PK_WRONG_ORDER); PK_NAME(PK_OTHER_QUEUE);
    PK_NAME(PK_OTHER_KIND); PK_NAME(PK_CHAIN_IN_FLIGHT); PK_NAME(PK_NOT_MAPPED);
    PK_NAME(PK_PUSHING); PK_NAME(PK_OTHER_CALL); PK_NAME(PK_OTHER_TABLE);
    PK_NAME(PK_RECORD_TRUNCATED);
    PK_NAME(PK_RECORD_BAD_MAGIC); PK_NAME(PK_RECORD_BAD_VERSION); PK_NAME(PK_RECORD_BAD_COUNT);
    PK_NAME(PK_RECORD_BAD_RESERVED); PK_NAME(PK_RECORD_BAD_QUEUE); PK_NAME(PK_RECORD_BAD_OPTIONS);
    PK_NAME(PK_RECORD_OUT_OF_MEMORY); PK_NAME(PK_RECORD_MISMATCH); PK_NAME(PK_BAD_DEVICE);
    PK_NAME(PK_BAD_QUEUE_SIZE); PK_NAME(PK_BAD_QUEUE_ALIGNMENT); PK_NAME(PK_BAD_QUEUE_END);
    PK_NAME(PK_BAD_MAX_IN_FLIGHT); PK_NAME(PK_BAD_EVENT_INDEX); PK_NAME(PK_BAD_QUEUE_STATE);
    PK_NAME(PK_QUEUE_NOT_BEGUN); PK_NAME(PK_EMPTY_REGION); PK_NAME(PK_BAD_REGION_HOST);
    PK_NAME(PK_BAD_REGION_GUEST); PK_NAME(PK_BAD_REGION_LEN); PK_NAME(PK_BAD_REGION_END);
    PK_NAME(PK_TOO_MANY_REGIONS); PK_NAME(PK_REGIONS_OVERLAP);
    default: return "";
    }
}
static inline const char *pk_state_name(uint32_t state) {
    switch (state) {
    PK_NAME(PK_STATE_NONE); PK_NAME(PK_STATE_FREE); PK_NAME(PK_STATE_POPPING);
    PK_NAME(PK_STATE_POPPED); PK_NAME(PK_STATE_DECODED); PK_NAME(PK_STATE_LISTING);
    PK_NAME(PK_STATE_REPLIED); PK_NAME(PK_STATE_PUSHING);
    default: return "";
    }
}
static inline const char *pk_fault_name(uint32_t fault) {
    switch (fault) {
    PK_NAME(PK_FAULT_NONE); PK_NAME(PK_FAULT_TOO_LONG); PK_NAME(PK_FAULT_NEXT_OUT_OF_TABLE);
    PK_NAME(PK_FAULT_ADDRESS_OVERFLOW); PK_NAME(PK_FAULT_INDIRECT_WITH_NEXT);
    PK_NAME(PK_FAULT_INDIRECT_NESTED); PK_NAME(PK_FAULT_INDIRECT_LENGTH);
    PK_NAME(PK_FAULT_TABLE_UNREACHABLE); PK_NAME(PK_FAULT_OVER_LIMIT);
    PK_NAME(PK_FAULT_REQUEST_UNREACHABLE); PK_NAME(PK_FAULT_ROOM_UNREACHABLE);
    default: return "";
    }
}
static inline const char *pk_request_fault_name(uint32_t fault) {
    switch (fault) {
    PK_NAME(PK_REQUEST_DECODE); PK_NAME(PK_REQUEST_ENCODE); PK_NAME(PK_REQUEST_MISSING_PARAMETER);
    PK_NAME(PK_REQUEST_MISSING_EXTENSION); PK_NAME(PK_REQUEST_HEADER_LENGTH);
    PK_NAME(PK_REQUEST_NAME); PK_NAME(PK_REQUEST_XATTR_SIZE);
    default: return "";
    }
}
static inline const char *pk_call_name(uint32_t kind) {
    switch (kind) {
    PK_NAME(PK_CALL_NONE); PK_NAME(PK_CALL_LOOKUP); PK_NAME(PK_CALL_FORGET);
    PK_NAME(PK_CALL_GETATTR); PK_NAME(PK_CALL_SETATTR); PK_NAME(PK_CALL_READLINK);
    PK_NAME(PK_CALL_SYMLINK); PK_NAME(PK_CALL_MKNOD); PK_NAME(PK_CALL_MKDIR);
    PK_NAME(PK_CALL_UNLINK); PK_NAME(PK_CALL_RMDIR); PK_NAME(PK_CALL_RENAME); PK_NAME(PK_CALL_LINK);
    PK_NAME(PK_CALL_OPEN); PK_NAME(PK_CALL_READ); PK_NAME(PK_CALL_WRITE); PK_NAME(PK_CALL_STATFS);
    PK_NAME(PK_CALL_RELEASE); PK_NAME(PK_CALL_FSYNC); PK_NAME(PK_CALL_SETXATTR);
    PK_NAME(PK_CALL_GETXATTR); PK_NAME(PK_CALL_LISTXATTR); PK_NAME(PK_CALL_REMOVEXATTR);
    PK_NAME(PK_CALL_FLUSH); PK_NAME(PK_CALL_INIT); PK_NAME(PK_CALL_OPENDIR);
    PK_NAME(PK_CALL_READDIR); PK_NAME(PK_CALL_RELEASEDIR); PK_NAME(PK_CALL_FSYNCDIR);
    PK_NAME(PK_CALL_ACCESS); PK_NAME(PK_CALL_CREATE); PK_NAME(PK_CALL_DESTROY);
    PK_NAME(PK_CALL_BATCH_FORGET); PK_NAME(PK_CALL_FALLOCATE); PK_NAME(PK_CALL_READDIRPLUS);
    PK_NAME(PK_CALL_LSEEK); PK_NAME(PK_CALL_COPY_FILE_RANGE);
    PK_NAME(PK_CALL_SYNCFS);
    default: return "";
    }
#undef PK_NAME
}

/* ---------------------------------------------------------------- layout */
/* Where each field lies, and each struct's size, in bytes. The library's source and the crate for
 * Rust have the same numbers (tools/layouts.py). */
#if defined(__cplusplus)
#define PK_ASSERT(is, what) static_assert(is, what)
#elif defined(__STDC_VERSION__) && __STDC_VERSION__ >= 201112L
#define PK_ASSERT(is, what) _Static_assert(is, what)
#else
#define PK_ASSERT(is, what) struct pk_asserted
#endif
#define PK_AT(kind, field, at) PK_ASSERT(offsetof(struct kind, field) == at, #kind)
#define PK_SIZE(kind, size) PK_ASSERT(sizeof(struct kind) == size, #kind)
PK_AT(pk_device, page_size, 0); PK_AT(pk_device, limit, 4); PK_AT(pk_device, options, 8);
PK_SIZE(pk_device, 16);
PK_AT(pk_queue, desc, 0); PK_AT(pk_queue, avail, 8); PK_AT(pk_queue, used, 16);
PK_AT(pk_queue, size, 24); PK_AT(pk_queue, next_avail, 26); PK_AT(pk_queue, next_used, 28);
PK_AT(pk_queue, max_in_flight, 30); PK_AT(pk_queue, stopped, 32); PK_AT(pk_queue, pushing, 34);
PK_AT(pk_queue, event_index, 35); PK_AT(pk_queue, reset_count, 36); PK_AT(pk_queue, pop_count, 40);
PK_SIZE(pk_queue, 48);
PK_AT(pk_region, guest, 0); PK_AT(pk_region, len, 8); PK_AT(pk_region, host, 16);
PK_SIZE(pk_region, 24);
PK_AT(pk_chain, at, 0); PK_AT(pk_chain, state, 8); PK_SIZE(pk_chain, 16);
PK_AT(pk_pop_result, load_at, 0); PK_AT(pk_pop_result, load_len, 8);
PK_AT(pk_pop_result, request_len, 16); PK_AT(pk_pop_result, reply_len, 24);
PK_AT(pk_pop_result, fault, 32); PK_AT(pk_pop_result, head, 36); PK_AT(pk_pop_result, ticket, 40);
PK_AT(pk_pop_result, miss_at, 48); PK_AT(pk_pop_result, miss_len, 56);
PK_AT(pk_pop_result, miss_access, 64); PK_SIZE(pk_pop_result, 72);
PK_AT(pk_load_ahead, at, 0); PK_AT(pk_load_ahead, len, 8); PK_SIZE(pk_load_ahead, 16);
PK_AT(pk_window, at, 0); PK_AT(pk_window, len, 8); PK_SIZE(pk_window, 16);
PK_AT(pk_range, guest, 0); PK_AT(pk_range, len, 8); PK_SIZE(pk_range, 16);
PK_AT(pk_iotlb, at, 0); PK_AT(pk_iotlb, full, 8); PK_SIZE(pk_iotlb, 16);
PK_AT(pk_miss, at, 0); PK_AT(pk_miss, len, 8); PK_AT(pk_miss, access, 16); PK_SIZE(pk_miss, 24);
PK_AT(pk_span, at, 0); PK_AT(pk_span, len, 4); PK_SIZE(pk_span, 8);
PK_AT(pk_attr, ino, 0); PK_AT(pk_attr, size, 8); PK_AT(pk_attr, blocks, 16);
PK_AT(pk_attr, atime, 24); PK_AT(pk_attr, mtime, 32); PK_AT(pk_attr, ctime, 40);
PK_AT(pk_attr, atime_nanos, 48); PK_AT(pk_attr, mtime_nanos, 52); PK_AT(pk_attr, ctime_nanos, 56);
PK_AT(pk_attr, mode, 60); PK_AT(pk_attr, nlink, 64); PK_AT(pk_attr, uid, 68);
PK_AT(pk_attr, gid, 72); PK_AT(pk_attr, rdev, 76); PK_AT(pk_attr, block_size, 80);
PK_AT(pk_attr, flags, 84); PK_SIZE(pk_attr, 88);
PK_AT(pk_call, kind, 0); PK_AT(pk_call, answer, 4); PK_AT(pk_call, opcode, 8);
PK_AT(pk_call, fault, 12); PK_AT(pk_call, unique, 16); PK_AT(pk_call, uid, 24);
PK_AT(pk_call, gid, 28); PK_AT(pk_call, pid, 32); PK_AT(pk_call, needed, 36);
PK_AT(pk_call, node, 40); PK_AT(pk_call, handle, 48); PK_AT(pk_call, offset, 56);
PK_AT(pk_call, size, 64); PK_AT(pk_call, owner, 72); PK_AT(pk_call, options, 80);
PK_AT(pk_call, count, 88); PK_AT(pk_call, node2, 96); PK_AT(pk_call, handle2, 104);
PK_AT(pk_call, offset2, 112); PK_AT(pk_call, name, 120); PK_AT(pk_call, name2, 128);
PK_AT(pk_call, value, 136); PK_AT(pk_call, data_at, 144); PK_AT(pk_call, data_len, 152);
PK_AT(pk_call, flags, 160); PK_AT(pk_call, mode, 164); PK_AT(pk_call, umask, 168);
PK_AT(pk_call, rdev, 172); PK_AT(pk_call, valid, 176); PK_AT(pk_call, has_handle, 180);
PK_AT(pk_call, has_owner, 181); PK_AT(pk_call, delayed, 182); PK_AT(pk_call, kill_priv, 183);
PK_AT(pk_call, flush, 184); PK_AT(pk_call, unlock, 185); PK_AT(pk_call, data_only, 186);
PK_AT(pk_call, has_group, 187); PK_AT(pk_call, attr, 192); PK_AT(pk_call, group, 280);
PK_AT(pk_call, ticket, 284); PK_AT(pk_call, label_name, 288); PK_AT(pk_call, label, 296);
PK_AT(pk_call, setxattr_flags, 304); PK_AT(pk_call, has_label, 308); PK_SIZE(pk_call, 312);
PK_AT(pk_entry, node, 0); PK_AT(pk_entry, generation, 8); PK_AT(pk_entry, entry_secs, 16);
PK_AT(pk_entry, attr_secs, 24); PK_AT(pk_entry, entry_nanos, 32); PK_AT(pk_entry, attr_nanos, 36);
PK_AT(pk_entry, attr, 40); PK_SIZE(pk_entry, 128);
PK_AT(pk_statfs, blocks, 0); PK_AT(pk_statfs, bfree, 8); PK_AT(pk_statfs, bavail, 16);
PK_AT(pk_statfs, files, 24); PK_AT(pk_statfs, ffree, 32); PK_AT(pk_statfs, bsize, 40);
PK_AT(pk_statfs, namelen, 44); PK_AT(pk_statfs, frsize, 48); PK_SIZE(pk_statfs, 56);
PK_AT(pk_stores, front_len, 0); PK_AT(pk_stores, id_at, 8); PK_AT(pk_stores, len_at, 16);
PK_AT(pk_stores, id, 24); PK_AT(pk_stores, len, 28); PK_AT(pk_stores, index_at, 32);
PK_AT(pk_stores, index, 40); PK_AT(pk_stores, seen_at, 48); PK_AT(pk_stores, element_guest, 56);
PK_AT(pk_stores, index_guest, 64); PK_SIZE(pk_stores, 72);
PK_AT(pk_store, at, 0); PK_AT(pk_store, value, 8); PK_AT(pk_store, len, 10); PK_SIZE(pk_store, 16);
#undef PK_AT
#undef PK_SIZE
#undef PK_ASSERT
#endif
