/* Memory in as many slots as the back-end allows: part of checks. Each is a region of a page, far
 * from the others for the guest. A guest's request is answered in the last one. */
#define _GNU_SOURCE
#include "checks.h"
#include <fcntl.h>
#include <linux/fuse.h>
#include <stdio.h>
#include <string.h>
#include <sys/mman.h>
#include <unistd.h>

enum { GET_MAX_MEM_SLOTS = 36, ADD_MEM_REG = 37, SLOTS = 509, PAGE = 4096 };

static const uint64_t first = 1ull << 36, users = 1ull << 46;

static uint64_t add(uint64_t k, int fd) {
    struct {
        uint64_t padding, guest, len, user, offset;
    } region = {0, first + 2 * PAGE * k, PAGE, users + 2 * PAGE * k, 0};
    return front_tell(&front, ADD_MEM_REG, &region, sizeof region, &fd, 1);
}

/* A GETATTR, whose reply goes to a guest address. */
static bool is_answered(uint64_t room, const void *here) {
    struct fuse_in_header head = {.len = 56, .opcode = FUSE_GETATTR, .unique = 77, .nodeid = ROOT};
    struct fuse_out_header out;
    uint64_t at = request_at(1);
    memcpy(front_at(&front, at), &head, sizeof head);
    memset(front_at(&front, at + sizeof head), 0, sizeof(struct fuse_getattr_in));
    put_descriptor(&front, desc_at(1), 0, at, head.len, 1, 1);
    put_descriptor(&front, desc_at(1), 1, room, PAGE, 2, 0);
    front_offer(&front, 1, 0);
    front_kick(&front, 1);
    if (!front_wait(&front, 1, 20000)) return false;
    memcpy(&out, here, sizeof out);
    return out.unique == head.unique && out.error == 0;
}

void slots(void) {
    int fd = memfd_create("slots", MFD_CLOEXEC);
    if (fd < 0 || ftruncate(fd, PAGE)) die("no memory");
    void *page = mmap(NULL, PAGE, PROT_READ | PROT_WRITE, MAP_SHARED, fd, 0);
    if (page == MAP_FAILED) die("no memory");
    check("509 slots, as with vhost", front_number(&front, GET_MAX_MEM_SLOTS) == SLOTS);
    for (uint64_t k = REGIONS; k < SLOTS; k++)
        if (add(k, fd)) die("region %u is refused", (unsigned)k + 1);
    check("a request in the last region", is_answered(first + 2 * PAGE * (SLOTS - 1), page));
    unsigned more = 0;
    while (more < PAGE && add(SLOTS + more, fd) == 0) more++;
    check("regions without end are refused", more < PAGE);
    check("a request afterwards", is_answered(first + 2 * PAGE * (SLOTS - 1), page));
    printf("slots: %u regions, and %u more\n", SLOTS, more);
}
