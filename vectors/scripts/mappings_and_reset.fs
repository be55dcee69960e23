# A queue that stopped for a missing mapping stays stopped with the mapping, until it is reset.
queue 4 0 0x100 0x200
region 0 0x10000
write 0x1000 28000000070000000100000000000000000000000000000000000000000000000000000000000000
# Chain 0: reads 40 at 0x1000; writes 16 at 0x2000
write 0 0010000000000000280000000100010000200000000000001000000002000000
# Offers 0
write 0x100 000001000000
harvest
iommu on
kick 0 0
kick 0 1
kick 0 1
iommu off
kick 0 1
iommu on
map 0 0 0x10000 rw
kick 0 1
reset 0 4 0 0x100 0x200
kick 0 1
kick 0 1
read 0x2000 16
