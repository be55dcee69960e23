# Two regions over blocks of their own, and more regions over the same blocks. An access may cross
# from one region to the next.
queue 4 0 0x100 0x200
region 0 0x1000
region 0x1000 0x1000
alias 0x10000 0
write 0xffe 01020304
read 0x10ffe 2
read 0x10ffe 3
unregion 0x1000 0x1000
read 0x1000 2
alias 0x11000 1
read 0x10ffe 4
harvest
harvest
