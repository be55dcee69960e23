# Every refusal of a kick that stops a queue. A reset lets the queue go on.
queue 4 0x3000 0xffe 0x2000
region 0x1000 0xf000
write 0x1000 01000000
harvest
kick 0 1
kick 0 1
kick 0 0
read 0x2000 12
harvest
# A queue that was reset isn't stopped
reset 0 4 0x3000 0xffe 0x2000
kick 0 1
