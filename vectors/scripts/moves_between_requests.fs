# A request, a move, and the next request. No page is marked after the move, and the next used
# element follows the first one.
queue 4 0 0x100 0x200
region 0 0x10000
# A request of kind 7
write 0x1000 28000000070000000100000000000000000000000000000000000000000000000000000000000000
# Chain 0: reads 40 at 0x1000; writes 16 at 0x2000
write 0 0010000000000000280000000100010000200000000000001000000002000000
# Offers 0
write 0x100 000001000000
kick 0 1
move
harvest
read 0x2000 16
# Offers 0 again
write 0x102 02000000
kick 0 1
read 0x202 18
harvest
kick 0 1
