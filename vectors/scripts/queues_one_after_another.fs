# Nothing is available in zeros. The number of the next chain isn't read from the used index: chains
# one after another go into one slot after another.
queue 4 0x0 0x100 0x200
region 0 0x10000
kick 0 1
harvest
write 0x1000 28000000070000000100000000000000000000000000000000000000000000000000000000000000
write 0x0 0010000000000000280000000100010000200000000000001000000002000000
write 0x104 0000
write 0x102 0100
kick 0 1
read 0x2000 16
write 0x202 ffff
write 0x106 0000
write 0x102 0200
kick 0 1
read 0x20c 8
read 0x202 2
# two at once, of which at most 0, 1 and 9 are served
write 0x108 0000
write 0x102 0300
write 0x10a 0000
write 0x102 0400
kick 0 0
kick 0 1
kick 0 9
kick 0 9
read 0x21c 8
read 0x202 2
# FORGET of node 5, 3 times: no reply, and a length of 0
write 0x1000 300000000200000002000000000000000500000000000000000000000000000000000000000000000300000000000000
write 0x0 00100000000000003000000000000000
write 0x104 0000
write 0x102 0500
harvest
kick 0 1
read 0x204 8
read 0x202 2
harvest
