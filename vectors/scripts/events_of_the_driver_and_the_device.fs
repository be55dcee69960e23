# The event index (VIRTIO 1.2, 2.7.7 and 2.7.10): the driver is notified of the position that it
# wrote to used_event, and the device asks for its next position in avail_event. `done` ends with
# 1 if the driver is notified.
queue 8 0 0x1000 0x2000
region 0 0x8000
# An opcode that is none; the available ring names it eight times.
write 0x3000 28000000070000001100000000000000010000000000000000000000000000000000000000000000
write 0 0030000000000000280000000100010000400000000000001000000002000000
write 0x1004 00000000000000000000000000000000
event_index on
harvest
# The driver wants to be notified of position 2: used_event is 2, and three chains are available.
write 0x1014 0200
write 0x1002 0300
kick 0 1
kick 0 1
kick 0 1
read 0x2000 70
# Of none that is near: used_event is 0x102, whose low byte is that of position 2. Bit 0 of the
# flags means nothing.
write 0x1000 0100
write 0x1014 0201
write 0x1002 0600
kick 0 9
# Of position 6, which comes, and of 7, which has come when the next one is returned.
write 0x1014 0600
write 0x1002 0700
kick 0 9
write 0x1002 0800
kick 0 9
# Before the device sleeps it asks for the next chain: avail_event is 8, its position. To turn it
# off changes nothing.
read 0x2044 2
notify 0 on
read 0x2000 70
notify 0 off
read 0x2044 2
harvest
# Without the event index flags count: of the used ring for the device, of the available ring for
# the driver.
event_index off
notify 0 off
read 0x2000 4
notify 0 on
read 0x2000 4
write 0x1000 0100
write 0x1002 0900
kick 0 1
write 0x1000 0000
write 0x1002 0a00
kick 0 1
notify 1 on
harvest
