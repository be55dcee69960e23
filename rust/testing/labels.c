/* Checks of what comes with a new node: its security label, and POSIX access control lists. */
#define _GNU_SOURCE
#include "checks.h"
#include <errno.h>
#include <fcntl.h>
#include <linux/fuse.h>
#include <linux/posix_acl.h>
#include <linux/posix_acl_xattr.h>
#include <stdio.h>
#include <string.h>
#include <sys/stat.h>
#include <sys/xattr.h>

/* Of flags2; and enum fuse_ext_type: newer than some headers. */
enum { SECURITY_CTX = 1 << 0, CREATE_SUPP_GROUP = 1 << 2, EXT_GROUPS = 32 };

/* The arguments of a request, as they are put together. */
struct body {
    uint8_t bytes[512];
    uint32_t len;
};

static void put(struct body *body, const void *bytes, size_t len) {
    memcpy(body->bytes + body->len, bytes, len);
    body->len += (uint32_t)len;
}

static void put_name(struct body *body, const char *name) { put(body, name, strlen(name) + 1); }

static int ask(uint32_t opcode, uint64_t node, const struct body *body) {
    front_ask(&front, 1, opcode, node, body->bytes, body->len, &reply);
    return reply.error;
}

/* INIT with these flags; what it agreed on is in the reply. */
static int init(uint32_t flags, uint32_t flags2) {
    struct fuse_init_in in = {.major = 7, .minor = 38, .flags = flags, .flags2 = flags2};
    front_ask(&front, 1, FUSE_INIT, 0, &in, sizeof in, &reply);
    return reply.error;
}

static struct fuse_init_out agreed(void) {
    struct fuse_init_out out;
    memcpy(&out, reply.data, sizeof out);
    return out;
}

static uint64_t node_of_entry(void) {
    struct fuse_entry_out entry;
    memcpy(&entry, reply.data, sizeof entry);
    return entry.nodeid;
}

/* ------------------------------------------------------------- labels */

#define VALUE "a:b\0c"

/* struct fuse_secctx_header (its length and the number of labels), struct fuse_secctx, the name,
 * and the label, to a multiple of 8 bytes. */
static void put_label(struct body *body, const char *name) {
    struct fuse_secctx secctx = {.size = sizeof VALUE - 1};
    uint32_t len = (uint32_t)(16 + strlen(name) + 1 + secctx.size), whole = (len + 7) & ~7u;
    uint32_t head[2] = {whole, 1};
    put(body, head, sizeof head);
    put(body, &secctx, sizeof secctx);
    put_name(body, name);
    put(body, VALUE, secctx.size);
    put(body, "\0\0\0\0\0\0\0", whole - len);
}

static void put_group(struct body *body) {
    uint32_t group[4] = {16, EXT_GROUPS, 1, 0};
    put(body, group, sizeof group);
}

/* A new node of each kind by its opcode; `order` is how its extensions follow each other: L is the
 * label, G a group, 0 no label. */
static int make(uint32_t opcode, const char *name, const char *label, const char *order) {
    struct fuse_create_in create_in = {.flags = O_RDWR | O_CREAT, .mode = S_IFREG | 0600};
    struct fuse_mknod_in mknod_in = {.mode = S_IFREG | 0600};
    struct fuse_mkdir_in mkdir_in = {.mode = 0700};
    static const uint32_t none[2] = {8, 0};
    struct body body = {.len = 0};
    if (opcode == FUSE_CREATE) put(&body, &create_in, sizeof create_in);
    if (opcode == FUSE_MKNOD) put(&body, &mknod_in, sizeof mknod_in);
    if (opcode == FUSE_MKDIR) put(&body, &mkdir_in, sizeof mkdir_in);
    put_name(&body, name);
    if (opcode == FUSE_SYMLINK) put_name(&body, "target");
    for (; *order; order++) {
        if (*order == 'L') put_label(&body, label);
        if (*order == 'G') put_group(&body);
        if (*order == '0') put(&body, none, sizeof none);
    }
    return ask(opcode, ROOT, &body);
}

static ssize_t label_of(const char *dir, const char *name, char *value, size_t len) {
    char path[300];
    snprintf(path, sizeof path, "%s/%s", dir, name);
    return lgetxattr(path, "user.label", value, len);
}

static bool is_there(const char *dir, const char *name) {
    struct stat found;
    char path[300];
    snprintf(path, sizeof path, "%s/%s", dir, name);
    return lstat(path, &found) == 0;
}

/* The host's file has the label that the guest sent. Where it can't have it (a link has no user.*),
 * it isn't made. */
void labels(const char *dir) {
    static const uint32_t opcodes[] = {FUSE_CREATE, FUSE_MKNOD, FUSE_MKDIR};
    static const char *const orders[] = {"L", "GL", "LG"};
    char name[20], value[20];
    expect("INIT without FUSE_SECURITY_CTX", init(~0u, 0), EPROTO);
    expect("INIT", init(~0u, SECURITY_CTX | CREATE_SUPP_GROUP), 0);
    check("FUSE_SECURITY_CTX is agreed on", agreed().flags2 & SECURITY_CTX);
    for (unsigned k = 0; k < 9; k++) {
        snprintf(name, sizeof name, "labelled%u", k);
        expect(name, make(opcodes[k / 3], name, "user.label", orders[k % 3]), 0);
        ssize_t len = label_of(dir, name, value, sizeof value);
        check("the label", len == sizeof VALUE - 1 && !memcmp(value, VALUE, sizeof VALUE - 1));
    }
    expect("CREATE with no label", make(FUSE_CREATE, "bare", "", "0G"), 0);
    check("no label", label_of(dir, "bare", value, sizeof value) < 0 && errno == ENODATA);
    expect("CREATE without an extension", make(FUSE_CREATE, "none", "", ""), -1);
    check("it isn't made", !is_there(dir, "none"));
    expect("SYMLINK", make(FUSE_SYMLINK, "link", "user.label", "L"), EPERM);
    check("it isn't left", !is_there(dir, "link"));
    expect("CREATE with a label of another kind", make(FUSE_CREATE, "odd", "odd", "GL"),
           EOPNOTSUPP);
    check("it isn't left", !is_there(dir, "odd"));
    printf("labels: of 9 new files\n");
}

/* ------------------------------------------------------------- access control lists */

/* A list: its version, and entries of the owner, its group and others. */
struct list {
    struct posix_acl_xattr_header head;
    struct posix_acl_xattr_entry entries[3];
};

static struct list list_of(uint16_t owner, uint16_t group, uint16_t others) {
    return (struct list){{POSIX_ACL_XATTR_VERSION},
                         {{ACL_USER_OBJ, owner, ACL_UNDEFINED_ID},
                          {ACL_GROUP_OBJ, group, ACL_UNDEFINED_ID},
                          {ACL_OTHER, others, ACL_UNDEFINED_ID}}};
}

static int set_list(uint64_t node, const char *name, struct list list, uint32_t flags) {
    struct fuse_setxattr_in in = {.size = sizeof list, .setxattr_flags = flags};
    struct body body = {.len = 0};
    put(&body, &in, sizeof in);
    put_name(&body, name);
    put(&body, &list, sizeof list);
    return ask(FUSE_SETXATTR, node, &body);
}

static void has_list(uint64_t node, const char *name, struct list list) {
    struct fuse_getxattr_in in = {.size = 256};
    struct body body = {.len = 0};
    put(&body, &in, sizeof in);
    put_name(&body, name);
    expect("GETXATTR", ask(FUSE_GETXATTR, node, &body), 0);
    check("the list", reply.len == sizeof list && !memcmp(reply.data, &list, sizeof list));
}

static mode_t mode_of(const char *dir, const char *name) {
    struct stat found = {.st_mode = 0};
    char path[300];
    snprintf(path, sizeof path, "%s/%s", dir, name);
    check(name, lstat(path, &found) == 0);
    return found.st_mode & 07777;
}

static uint64_t make_directory(uint64_t parent, const char *name, uint32_t mode) {
    struct fuse_mkdir_in in = {.mode = mode, .umask = 027};
    struct body body = {.len = 0};
    put(&body, &in, sizeof in);
    put_name(&body, name);
    expect(name, ask(FUSE_MKDIR, parent, &body), 0);
    return node_of_entry();
}

static void create(uint64_t parent, const char *name) {
    struct fuse_create_in in = {.flags = O_RDWR | O_CREAT, .mode = S_IFREG | 0666, .umask = 027};
    struct body body = {.len = 0};
    put(&body, &in, sizeof in);
    put_name(&body, name);
    expect(name, ask(FUSE_CREATE, parent, &body), 0);
}

/* The host applies the mask of the guest's process, but where a list of the directory stands for
 * it; and clears the set-group bit with a list only if the guest says so. */
void access_lists(const char *dir) {
    static const uint32_t needed = FUSE_POSIX_ACL | FUSE_DONT_MASK | FUSE_SETXATTR_EXT;
    expect("INIT without FUSE_POSIX_ACL", init(~(uint32_t)FUSE_POSIX_ACL, 0), EPROTO);
    expect("INIT without FUSE_SETXATTR_EXT", init(~(uint32_t)FUSE_SETXATTR_EXT, 0), EPROTO);
    expect("INIT", init(~0u, 0), 0);
    check("what lists need is agreed on", (agreed().flags & needed) == needed);

    uint64_t plain = make_directory(ROOT, "plain", 0777);
    check("the mask is applied", mode_of(dir, "plain") == 0750);
    create(plain, "new");
    check("the mask is applied to a file", mode_of(dir, "plain/new") == 0640);

    struct list list = list_of(7, 6, 4);
    expect("SETXATTR", set_list(plain, "system.posix_acl_default", list, 0), 0);
    has_list(plain, "system.posix_acl_default", list);
    create(plain, "listed");
    check("the list stands for the mask", mode_of(dir, "plain/listed") == 0664);

    uint64_t shared = make_directory(ROOT, "ours", 0777);
    char path[300];
    snprintf(path, sizeof path, "%s/ours", dir);
    check("chmod", chmod(path, 02750) == 0);
    expect("SETXATTR", set_list(shared, "system.posix_acl_access", list, 0), 0);
    check("the bit stays", mode_of(dir, "ours") == 02764);
    expect("SETXATTR",
           set_list(shared, "system.posix_acl_access", list, FUSE_SETXATTR_ACL_KILL_SGID), 0);
    check("the bit is cleared", mode_of(dir, "ours") == 0764);
    printf("lists: kept, and in place of the mask\n");
}
