# Marks of a block of 40 MiB, of which 4096 pages and more lie between one and the next.
queue 4 0x0 0x100 0x200
region 0 0x2800000
harvest
write 0x0 00
write 0x1000000 01
write 0x2000fff 0203
harvest
write 0xffffff 0102
harvest
write 0x27fffff 05
harvest
harvest
