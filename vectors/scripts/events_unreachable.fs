# With the event index a pop first tests that used_event and avail_event can be reached. The queue
# stops if one of them can not (refusals 7 and 6).
queue 4 0 0xff4 0x2fdc
region 0 0x1000
region 0x2000 0x1000
# used_event is at 0x1000 and avail_event at 0x3000: neither has a region.
write 0x800 28000000070000001100000000000000010000000000000000000000000000000000000000000000
write 0 0008000000000000280000000100010000090000000000001000000002000000
write 0xff8 0000000000000000
write 0xff6 0100
event_index on
kick 0 1
kick 0 1
notify 0 on
notify 0 off
event_index off
notify 0 on
reset 0 4 0 0xff4 0x2fdc
kick 0 1
# With used_event alone.
region 0x1000 0x1000
event_index on
reset 0 4 0 0xff4 0x2fdc
kick 0 1
kick 0 1
# With both.
region 0x3000 0x1000
reset 0 4 0 0xff4 0x2fdc
write 0x1000 0000
kick 0 1
notify 0 on
read 0x2fdc 8
read 0x3000 2
