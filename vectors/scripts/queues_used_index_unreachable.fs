# No region has the used index, and one has the used element (VIRTIO 1.2, 2.7.8); then the other way
# round. Once both have a region, the chain is served.
queue 4 0 0x100 0x3ffc
region 0 0x3000
region 0x4000 0x1000
write 0x1000 28000000070000000100000000000000000000000000000000000000000000000000000000000000
write 0 0010000000000000280000000100010000200000000000001000000002000000
write 0x100 000001000000
kick 0 1
reset 0 4 0 0x100 0x2ffc
kick 0 1
region 0x3000 0x1000
reset 0 4 0 0x100 0x3ffc
kick 0 1
read 0x3ffe 10
