# A queue that stops, and is reset.
queue 4 0 0x100 0x200
region 0 0x10000
# FORGET (opcode 2) of node 5 by 3: 48 bytes, and no room, since it has no reply.
write 0x1000 300000000200000002000000000000000500000000000000000000000000000000000000000000000300000000000000
write 0 00100000000000003000000000000000
# The ring's entry names the chain with head 4, but the table ends at 3.
write 0x100 000001000400
# HeadOutOfTable (5) stops the queue; from then on it is Stopped (1), whatever the guest writes.
kick 0 1
write 0x104 0000
kick 0 1
# No step is asked for, so none is refused.
kick 0 0
# The queue has the same areas again, but begins at position 0.
reset 0 4 0 0x100 0x200
kick 0 1
kick 0 1
# A table has to stand at a multiple of 16 (badlayout 2), and there is only one queue (refused 8).
reset 0 4 8 0x100 0x200
reset 1 4 0 0x100 0x200
# The used index, and the element of chain 0 without a byte.
read 0x202 10
