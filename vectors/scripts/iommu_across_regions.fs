# One mapping leads across three regions: a request lies in the first two, and its reply in the last two.
queue 4 0x0 0x100 0x200
region 0x0 0x2000
region 0x2000 0x2000
region 0x4000 0x2000
# a request of opcode 7, whose length is in the first region
write 0x1ffc 28000000070000001122334455667788000000000000000000000000000000000000000000000000
write 0x0 fc1f0000000000002800000001000100f83f0000000000001000000002000000
write 0x104 0000
write 0x102 0100
map 0x0 0x0 0x6000 rw
iommu on
kick 0 1
read 0x3ff8 16
read 0x202 10
