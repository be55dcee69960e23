# A reset of a missing queue is refused if the layout is good. A bad layout changes nothing.
queue 4 0 0x100 0x200
region 0 0x10000
reset 1 4 0x3000 0x3100 0x3200
reset 1 3 0x3000 0x3100 0x3200
# Offers 4
write 0x100 000001000400
kick 0 1
reset 0 4 0x3008 0x3100 0x3200
kick 0 1
