#include "plain_fields.h"
#include <stddef.h>
#include <string.h>

#define FIELDS(field) \
    field(handle) field(offset) field(size) field(owner) field(options) field(count) field(node2) \
    field(handle2) field(offset2) field(name) field(name2) field(value) field(data_at) \
    field(data_len) field(flags) field(mode) field(umask) field(rdev) field(valid) \
    field(has_handle) field(has_owner) field(delayed) field(kill_priv) field(flush) field(unlock) \
    field(data_only) field(attr) field(has_group) field(group) field(has_label) field(label_name) \
    field(label) field(setxattr_flags)

#define NUMBER(name) N_##name,
enum { FIELDS(NUMBER) COUNT };
#define PLACE(name) {#name, offsetof(struct pk_call, name), sizeof(((struct pk_call *)0)->name)},
static const struct {
    const char *name;
    size_t at, len;
} places[] = {FIELDS(PLACE)};

#define HAS(name) (UINT64_C(1) << N_##name)
#define NEW (HAS(has_group) | HAS(group) | HAS(has_label) | HAS(label_name) | HAS(label))
#define DATA (HAS(data_at) | HAS(data_len))
#define OPEN (HAS(flags) | HAS(kill_priv))
#define LISTS (HAS(handle) | HAS(offset) | HAS(size) | DATA)
#define USE (HAS(handle) | HAS(offset) | HAS(size) | HAS(flags) | HAS(owner) | DATA)

/* By the comments of enum pk_call_kind. */
static const uint64_t has[52] = {
    [PK_CALL_LOOKUP] = HAS(name),
    [PK_CALL_FORGET] = HAS(count),
    [PK_CALL_GETATTR] = HAS(handle) | HAS(has_handle),
    [PK_CALL_SETATTR] = HAS(valid) | HAS(attr) | HAS(owner) | HAS(handle) | HAS(has_handle),
    [PK_CALL_READLINK] = DATA,
    [PK_CALL_SYMLINK] = HAS(name) | HAS(value) | NEW,
    [PK_CALL_MKNOD] = HAS(name) | HAS(mode) | HAS(rdev) | HAS(umask) | NEW,
    [PK_CALL_MKDIR] = HAS(name) | HAS(mode) | HAS(umask) | NEW,
    [PK_CALL_UNLINK] = HAS(name),
    [PK_CALL_RMDIR] = HAS(name),
    [PK_CALL_RENAME] = HAS(name) | HAS(name2) | HAS(node2) | HAS(flags),
    [PK_CALL_LINK] = HAS(name) | HAS(node2),
    [PK_CALL_OPEN] = OPEN,
    [PK_CALL_READ] = USE | HAS(has_owner),
    [PK_CALL_WRITE] = USE | HAS(has_owner) | HAS(delayed) | HAS(kill_priv),
    [PK_CALL_RELEASE] = HAS(handle) | HAS(flags) | HAS(flush) | HAS(unlock) | HAS(owner) |
                      HAS(has_owner),
    [PK_CALL_FSYNC] = HAS(handle) | HAS(data_only),
    [PK_CALL_SETXATTR] = HAS(name) | HAS(value) | HAS(flags) | HAS(setxattr_flags),
    [PK_CALL_GETXATTR] = HAS(name) | HAS(size) | DATA,
    [PK_CALL_LISTXATTR] = HAS(size) | DATA,
    [PK_CALL_REMOVEXATTR] = HAS(name),
    [PK_CALL_FLUSH] = HAS(handle) | HAS(owner),
    [PK_CALL_INIT] = HAS(options),
    [PK_CALL_OPENDIR] = HAS(flags),
    [PK_CALL_READDIR] = LISTS,
    [PK_CALL_RELEASEDIR] = HAS(handle) | HAS(flags),
    [PK_CALL_FSYNCDIR] = HAS(handle) | HAS(data_only),
    [PK_CALL_ACCESS] = HAS(mode),
    [PK_CALL_CREATE] = HAS(name) | HAS(mode) | HAS(umask) | OPEN | NEW,
    [PK_CALL_BATCH_FORGET] = HAS(value) | HAS(count),
    [PK_CALL_FALLOCATE] = HAS(handle) | HAS(mode) | HAS(offset) | HAS(size),
    [PK_CALL_READDIRPLUS] = LISTS,
    [PK_CALL_LSEEK] = HAS(handle) | HAS(offset) | HAS(flags),
    [PK_CALL_COPY_FILE_RANGE] = HAS(handle) | HAS(offset) | HAS(size) | HAS(node2) |
                                HAS(handle2) | HAS(offset2),
};

const char *stray_field(const struct pk_call *call) {
    static const uint8_t zeros[sizeof(struct pk_attr)];
    uint64_t fields = call->kind < 52 ? has[call->kind] : 0;
    /* a field that is there only with another one */
    if (!call->has_handle && fields & HAS(has_handle)) fields &= ~HAS(handle);
    if (!call->has_owner && fields & HAS(has_owner)) fields &= ~HAS(owner);
    if (!call->has_group) fields &= ~HAS(group);
    if (!call->has_label) fields &= ~(HAS(label) | HAS(label_name));
    for (size_t k = 0; k < COUNT; k++)
        if (!(fields >> k & 1) &&
            memcmp((const uint8_t *)call + places[k].at, zeros, places[k].len) != 0)
            return places[k].name;
    return NULL;
}
