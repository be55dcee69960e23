# A chain that is popped and dropped before its request is decoded is available again.
queue 8 0 0x1000 0x2000
region 0 0x8000
# Chain 0 is an opcode that is none, chain 2 a STATFS, chain 4 loops.
write 0x3000 28000000070000001100000000000000010000000000000000000000000000000000000000000000
write 0x3100 28000000110000002200000000000000010000000000000000000000000000000000000000000000
write 0 0030000000000000280000000100010000400000000000001000000002000000003100000000000028000000010003000041000000000000600000000200000000300000000000000000000001000400
write 0x1004 02000000020004000000020000000200
drop 0
harvest
write 0x1002 0100
# A chain that is dropped is available again: nothing is written, and the next one is still behind
# it.
drop 0
drop 0
harvest
kick 0 1
drop 0
write 0x1002 0300
drop 0
kick 0 1
drop 0
kick 0 9
read 0x2000 28
# A chain with a fault can not be dropped: it is returned.
write 0x1002 0500
drop 0
drop 0
kick 0 1
read 0x2000 44
# So is a refusal one of a kick, and stops the queue.
write 0x1002 ff00
drop 0
drop 0
kick 0 1
drop 1
reset 0 8 0 0x1000 0x2000
write 0x1002 0100
drop 0
kick 0 1
# The position moves along, as after a kick.
write 0x1002 0200
drop 0
move
drop 0
kick 0 1
harvest
