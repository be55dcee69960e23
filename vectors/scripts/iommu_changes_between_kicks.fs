# Mappings change between kicks. A refused line changes nothing.
queue 4 0 0x100 0x200
region 0 0x10000
write 0x1000 28000000070000000100000000000000000000000000000000000000000000000000000000000000
# Chain 0: reads 40 at 0x1000; writes 16 at 0x2000
write 0 0010000000000000280000000100010000200000000000001000000002000000
# Offers 0
write 0x100 000001000000
harvest
map 0 0 0x2000 rw
map 0x2000 0x3000 0x1000 w
iommu on
kick 0 1
# The request's number is 2, and it is offered again
write 0x1008 02
write 0x102 0200
map 0x2000 0x4000 0x1000 w
map 0x2000 0xffffffffffffffff 0x1000 none
unmap 0x2000 0xffffffffffffffff
kick 0 1
read 0x3000 16
read 0x4000 16
write 0x102 0300
map 0x2000 0x4000 0x1000 r
kick 0 1
write 0x102 0400
unmap 0x2000 0x1000
kick 0 1
read 0x202 34
# What the guest wrote
harvest
