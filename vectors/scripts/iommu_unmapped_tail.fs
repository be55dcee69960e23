# Addresses that are mapped in front of others lead on to them. After an unmap of some of these a buffer
# that crosses them isn't reached.
queue 4 0x0 0x100 0x200
region 0x0 0x10000
write 0x0 00080000000000000019000000000000
write 0x104 0000
write 0x102 0100
map 0x1000 0x1000 0x3000 rw
map 0x0 0x0 0x1000 rw
unmap 0x2000 0x1000
iommu on
kick 0 1
read 0x202 10
