# The device uses the table while the IOMMU is on. The guest uses guest addresses.
queue 4 0 0x100 0x200
region 0 0x10000
write 0x1000 28000000070000000100000000000000000000000000000000000000000000000000000000000000
write 0x0 0010000000000000280000000100010000200000000000001000000002000000
write 0x100 0000010000000000
# nothing is mapped: the available index can't be read
iommu on
kick 0 1
reset 0 4 0 0x100 0x200
iommu off
kick 0 1
# the guest writes and reads as if nothing was mapped
iommu on
map 0x5000 0x6000 0x1000 rw
write 0x5000 07
read 0x5000 1
read 0x6000 1
read 0x7000 1
# a mapping of no address changes nothing, nor does its end
reset 0 4 0 0x100 0x200
map 0 0 0 rw
kick 0 1
reset 0 4 0 0x100 0x200
map 0 0 0x10000 rw
unmap 0x102 0
kick 0 1
