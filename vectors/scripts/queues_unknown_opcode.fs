# A request with an opcode that FUSE does not have: the reply is ENOSYS. The guest marks the pages
# of request and rings, the device those of reply and used ring.
queue 4 0 0x100 0x200
region 0 0x10000
# A request of kind 7
write 0x1000 28000000070000000100000000000000000000000000000000000000000000000000000000000000
# Chain 0: reads 40 at 0x1000; writes 16 at 0x2000
write 0 0010000000000000280000000100010000200000000000001000000002000000
# Offers 0
write 0x100 000001000000
harvest
kick 0 1
read 0x2000 16
read 0x202 10
harvest
harvest
kick 0 1
