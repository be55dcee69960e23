# The event index stays on across a move and a reset of the queue.
queue 4 0 0xff0 0x2fd8
region 0 0x1000
region 0x1000 0x1000
region 0x2000 0x1000
region 0x3000 0x1000
write 0x800 28000000070000001100000000000000010000000000000000000000000000000000000000000000
write 0 0008000000000000280000000100010000090000000000001000000002000000
# used_event is at 0xffc, avail_event at 0x2ffc.
event_index on
write 0xff4 0000000000000000
write 0xffc 0100
write 0xff2 0100
kick 0 1
move
write 0xff2 0200
kick 0 1
notify 0 on
read 0x2fd8 38
# A reset queue begins at position 0, with the event index still.
reset 0 4 0 0xff0 0x2fd8
write 0xffc 0000
write 0xff2 0100
kick 0 1
notify 0 on
read 0x2ffc 2
