/* VIRTIO_F_ACCESS_PLATFORM as QEMU asks for it: the bit is offered together with a channel of the
 * back-end's own. Without a vIOMMU QEMU keeps the bit for itself, and addresses are the guest's
 * physical ones. iommu.c has a front-end that keeps it. */
#define _GNU_SOURCE
#include "checks.h"
#include <linux/fuse.h>
#include <poll.h>
#include <sys/socket.h>
#include <unistd.h>

enum { GET_FEATURES = 1, GET_PROTOCOL_FEATURES = 15, SET_BACKEND_REQ_FD = 21, IOTLB_MSG = 22 };
#define ACCESS_PLATFORM (1ull << 33)
#define REPLY_ACK (1ull << 3)
#define BACKEND_REQ (1ull << 5)

void platform(void) {
    uint64_t protocol = front_number(&front, GET_PROTOCOL_FEATURES);
    uint64_t invalidate_all[4] = {0, 1ull << 47, 0, 3 << 8};
    struct fuse_getattr_in in = {0};
    int channel[2];
    check("the bit is offered", front_number(&front, GET_FEATURES) & ACCESS_PLATFORM);
    check("with all that it wants",
          (protocol & (REPLY_ACK | BACKEND_REQ)) == (REPLY_ACK | BACKEND_REQ));
    if (socketpair(AF_UNIX, SOCK_STREAM | SOCK_CLOEXEC, 0, channel)) die("no channel");
    check("SET_BACKEND_REQ_FD",
          front_tell(&front, SET_BACKEND_REQ_FD, NULL, 0, &channel[1], 1) == 0);
    close(channel[1]);
    front_ask(&front, 1, FUSE_GETATTR, ROOT, &in, sizeof in, &reply);
    expect("GETATTR", reply.error, 0);
    check("IOTLB_MSG without an IOMMU is refused",
          front_tell(&front, IOTLB_MSG, invalidate_all, sizeof invalidate_all, NULL, 0) == 1);
    front_ask(&front, 1, FUSE_GETATTR, ROOT, &in, sizeof in, &reply);
    expect("GETATTR", reply.error, 0);
    struct pollfd end = {channel[0], POLLIN, 0};
    check("the channel stays open, and nothing is asked", poll(&end, 1, 200) == 0);
}
