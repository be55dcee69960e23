# A chain that loops is returned with its fault. An available index that is too far stops the
# queue.
queue 4 0 0x100 0x200
region 0 0x10000
write 0 00100000000000002800000001000000
# Offers 0
write 0x100 000001000000
kick 0 2
write 0x102 0900
kick 0 2
kick 0 0
kick 0 9
kick 1 0
kick 18446744073709551615 1
