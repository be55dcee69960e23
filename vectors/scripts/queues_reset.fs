# A stopped queue is reset to another place and serves the chain there. After one more reset it
# serves that chain again.
queue 4 0 0x100 0x200
region 0 0x10000
# FORGET of node 5, 3 times
write 0x1000 30000000020000000200000000000000050000000000000000000000000000000000000000000000
write 0x1028 0300000000000000
# Chain 0: reads 48 at 0x1000
write 0x3000 00100000000000003000000000000000
# Offers 4
write 0x100 000001000400
kick 0 1
kick 0 1
reset 0 4 0x3000 0x3100 0x3200
kick 0 1
# Offers 0
write 0x3100 000001000000
kick 0 1
reset 0 2 0x3000 0x3100 0x3200
kick 0 1
