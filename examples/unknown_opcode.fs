# A request with an opcode that no call has. Numbers in the guest's memory are little-endian.
# Queue 0, of size 4: descriptor table at 0, available ring at 0x100, used ring at 0x200.
queue 4 0 0x100 0x200
# Guest addresses 0 to 0xffff lie in block 0.
region 0 0x10000

# A header: len 40, opcode 7 (which none has), unique 1, 24 bytes 0.
write 0x1000 28000000070000000100000000000000000000000000000000000000000000000000000000000000
# Descriptor 0: 40 bytes at 0x1000, flags 1 (NEXT), next 1. Descriptor 1: 16 bytes at 0x2000, flags 2 (WRITE), the
# reply buffer.
write 0 0010000000000000280000000100010000200000000000001000000002000000
# The available ring: flags 0, index 1, and the head 0 as its first entry.
write 0x100 000001000000
# The guest wrote to block 0, pages 0 (table and ring) and 1 (request).
harvest

# The chain with head 0 is served without a call: 16 bytes are stored, no fault (-), and the driver is to be notified (1).
kick 0 1
# The reply, struct fuse_out_header: len 16, error -38 (ENOSYS), unique 1.
read 0x2000 16
# The used index 1, and the first used element: chain 0, 16 bytes.
read 0x202 10
# The device wrote to pages 0 (used ring) and 2 (reply buffer). The earlier marks were cleared.
harvest
