# A used element over two pages, and replies that end with a page, begin with one, and lie over
# two: `harvest` prints each page that the device wrote.
queue 4 0 0x800 0xff8
region 0 0x8000
write 0x3000 28000000070000001100000000000000010000000000000000000000000000000000000000000000
write 0 00300000000000002800000001000100f84f0000000000001000000002000000
write 0x804 0000000000000000
harvest
# The element is at 0xffc to 0x1004: its first half in page 0, with the index, its second half in
# page 1. The reply is in pages 4 and 5.
write 0x802 0100
harvest
kick 0 1
harvest
# The reply ends with page 4; the second element is in page 1, the index in page 0.
write 0x10 f04f0000000000001000000002000000
write 0x802 0200
harvest
kick 0 1
harvest
# The reply begins with page 5, and its buffer goes on in page 6, which is not written.
write 0x10 00500000000000001010000002000000
write 0x802 0300
harvest
kick 0 1
harvest
# One byte of the reply is in page 5, and 15 in page 6.
write 0x10 ff5f0000000000001000000002000000
write 0x802 0400
harvest
kick 0 1
harvest
