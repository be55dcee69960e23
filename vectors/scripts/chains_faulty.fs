# Faults of a chain of the queue's table (VIRTIO 1.2, 2.7.5): it is returned with a length of 0,
# and nothing is stored but the used ring. Which fault is reported is in brackets.
queue 4 0x0 0x100 0x200
region 0 0x10000
write 0x1000 28000000070000000100000000000000000000000000000000000000000000000000000000000000
# an entry that names itself (TooLong)
write 0x0 0010000000000000280000000100000000200000000000001000000002000000
write 0x104 0000
write 0x102 0100
harvest
kick 0 1
read 0x204 8
read 0x202 2
harvest
# two entries that name each other (TooLong)
write 0x0 0010000000000000280000000100010000200000000000001000000003000000
write 0x106 0000
write 0x102 0200
harvest
kick 0 1
read 0x20c 8
read 0x202 2
harvest
# an entry past the table (NextOutOfTable)
write 0x0 0010000000000000280000000100040000200000000000001000000002000000
write 0x108 0000
write 0x102 0300
harvest
kick 0 1
read 0x214 8
read 0x202 2
harvest
# a buffer past the last address (AddressOverflow)
write 0x0 f8ffffffffffffff080000000100010000200000000000001000000002000000
write 0x10a 0000
write 0x102 0400
harvest
kick 0 1
read 0x21c 8
read 0x202 2
harvest
# an indirect table in no region (TableUnreachable)
write 0x0 0000020000000000200000000400000000200000000000001000000002000000
write 0x104 0000
write 0x102 0500
harvest
kick 0 1
read 0x204 8
read 0x202 2
harvest
# a request of more bytes than the limit (OverLimit)
write 0x0 0010000000000000011010000100010000200000000000001000000002000000
write 0x106 0000
write 0x102 0600
harvest
kick 0 1
read 0x20c 8
read 0x202 2
harvest
# a reply buffer of more bytes than the limit (OverLimit)
write 0x0 0010000000000000280000000100010000000200000000000110100002000000
write 0x108 0000
write 0x102 0700
harvest
kick 0 1
read 0x214 8
read 0x202 2
harvest
# a request that ends outside of the region (RequestUnreachable)
write 0x0 f0ff000000000000280000000100010000200000000000001000000002000000
write 0x10a 0000
write 0x102 0800
harvest
kick 0 1
read 0x21c 8
read 0x202 2
harvest
# a reply buffer that ends outside of it (RoomUnreachable)
write 0x0 00100000000000002800000001000100f8ff0000000000001000000002000000
write 0x104 0000
write 0x102 0900
harvest
kick 0 1
read 0x204 8
read 0x202 2
harvest
# a reply buffer in no region (RoomUnreachable)
write 0x0 0010000000000000280000000100010000000200000000001000000002000000
write 0x106 0000
write 0x102 0a00
harvest
kick 0 1
read 0x20c 8
read 0x202 2
harvest
# a buffer of no bytes may be at any address: chain 3 goes on at 0
write 0x0 0010000000000000280000000100010000200000000000001000000002000000
write 0x30 ffffffffffffffff0000000001000000
write 0x108 0300
write 0x102 0b00
kick 0 1
read 0x214 8
read 0x202 2
read 0x2000 16
