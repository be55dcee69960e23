# Every refusal of a kick that stops a queue. A reset lets the queue go on.
queue 4 0 0x10000 0x2000
region 0x1000 0xf000
write 0x1000 00
kick 0 1
kick 0 1
kick 0 0
