# Queues that can't be served stop, and store nothing, until they are reset (VIRTIO 1.2, 2.7). The only
# region begins at 0x1000. The refusals are those of SCRIPT.
queue 4 0x4000 0x4100 0x4200
region 0x1000 0xf000
write 0x3000 28000000070000000100000000000000000000000000000000000000000000000000000000000000
write 0x4000 0030000000000000280000000100010000200000000000001000000002000000
# the available index is in no region
reset 0 4 0x4000 0x20000 0x4200
write 0x4102 0000
harvest
kick 0 1
kick 0 1
harvest
reset 0 4 0x4000 0x4100 0x4200
write 0x4100 000000000000
write 0x4202 00000000000000000000
write 0x4102 0100
kick 0 1
read 0x4202 10
read 0x2000 16
harvest
# five chains are available, and the queue has four
reset 0 4 0x4000 0x4100 0x4200
write 0x4102 0500
write 0x4104 0000
harvest
kick 0 1
kick 0 1
harvest
reset 0 4 0x4000 0x4100 0x4200
write 0x4100 000000000000
write 0x4202 00000000000000000000
write 0x4102 0100
kick 0 1
read 0x4202 10
read 0x2000 16
harvest
# 65535 are
reset 0 4 0x4000 0x4100 0x4200
write 0x4102 ffff
write 0x4104 0000
harvest
kick 0 1
kick 0 1
harvest
reset 0 4 0x4000 0x4100 0x4200
write 0x4100 000000000000
write 0x4202 00000000000000000000
write 0x4102 0100
kick 0 1
read 0x4202 10
read 0x2000 16
harvest
# the available ring ends in no region
reset 0 4 0x4000 0xfffc 0x4200
write 0xfffe 0100
harvest
kick 0 1
kick 0 1
harvest
reset 0 4 0x4000 0x4100 0x4200
write 0x4100 000000000000
write 0x4202 00000000000000000000
write 0x4102 0100
kick 0 1
read 0x4202 10
read 0x2000 16
harvest
# head 4
reset 0 4 0x4000 0x4100 0x4200
write 0x4102 0100
write 0x4104 0400
harvest
kick 0 1
kick 0 1
harvest
reset 0 4 0x4000 0x4100 0x4200
write 0x4100 000000000000
write 0x4202 00000000000000000000
write 0x4102 0100
kick 0 1
read 0x4202 10
read 0x2000 16
harvest
# the used ring ends in no region
reset 0 4 0x4000 0x4100 0xfff8
write 0x4102 0100
write 0x4104 0000
harvest
kick 0 1
kick 0 1
harvest
reset 0 4 0x4000 0x4100 0x4200
write 0x4100 000000000000
write 0x4202 00000000000000000000
write 0x4102 0100
kick 0 1
read 0x4202 10
read 0x2000 16
harvest
# the used ring is in no region
reset 0 4 0x4000 0x4100 0x20000
write 0x4102 0100
harvest
kick 0 1
kick 0 1
harvest
reset 0 4 0x4000 0x4100 0x4200
write 0x4100 000000000000
write 0x4202 00000000000000000000
write 0x4102 0100
kick 0 1
read 0x4202 10
read 0x2000 16
harvest
# the available flags are in no region
reset 0 4 0x4000 0xffe 0x4200
write 0x1000 0100
harvest
kick 0 1
kick 0 1
harvest
reset 0 4 0x4000 0x4100 0x4200
write 0x4100 000000000000
write 0x4202 00000000000000000000
write 0x4102 0100
kick 0 1
read 0x4202 10
read 0x2000 16
harvest
# the descriptor table is in no region
reset 0 4 0x20000 0x4100 0x4200
write 0x4102 0100
harvest
kick 0 1
kick 0 1
harvest
reset 0 4 0x4000 0x4100 0x4200
write 0x4100 000000000000
write 0x4202 00000000000000000000
write 0x4102 0100
kick 0 1
read 0x4202 10
read 0x2000 16
harvest
