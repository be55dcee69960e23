# A room that goes away with its region, and comes back elsewhere.
queue 4 0 0x100 0x200
# Block 0 holds the queue and the request, block 1 the room.
region 0 0x2000
region 0x2000 0x1000
# A request of 40 bytes and of no known kind (opcode 7), with room for 16 bytes at 0x2000.
write 0x1000 28000000070000000100000000000000000000000000000000000000000000000000000000000000
write 0 0010000000000000280000000100010000200000000000001000000002000000
# The ring names the chain three times, and one more comes with each kick.
write 0x100 00000100000000000000
harvest
kick 0 1
read 0x2000 16
# Block 1, page 0 is the room, block 0, page 0 the used ring.
harvest

# Without its region the reply buffer can't be written: the chain is returned with no reply.
unregion 0x2000 0x1000
write 0x102 0200
kick 0 1
read 0x2000 16

# Block 1 is still there. It comes back at 0x8000, and the guest names the room there.
alias 0x8000 1
read 0x8000 16
write 0x10 00800000000000001000000002000000
write 0x102 0300
kick 0 1
# Regions that overlap, and one that isn't there, are refused.
region 0x1fff 2
unregion 0x2000 0x1000
