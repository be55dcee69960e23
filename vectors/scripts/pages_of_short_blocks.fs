# Blocks whose last page is a part of one: its marks are harvested as those of a whole page.
queue 4 0x0 0x100 0x200
region 0 0x1800
region 0x10000 1
harvest
write 0x10000 07
harvest
write 0x17ff 01
harvest
write 0xfff 0102
harvest
read 0x17ff 2
# a reply in the last page
write 0x1000 28000000070000000100000000000000000000000000000000000000000000000000000000000000
write 0x0 00100000000000002800000001000100f0170000000000001000000002000000
write 0x104 0000
write 0x102 0100
harvest
kick 0 1
harvest
read 0x17f0 16
