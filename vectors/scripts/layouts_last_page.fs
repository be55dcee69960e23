# The last page of the address space. An access may end at 2^64 - 1 at most.
queue 4 0 0x100 0x200
read 0 1
read 0xffffffffffffffff 0
write 0 00
region 0xfffffffffffff000 0x1000
write 0xfffffffffffffffc aBcD09
read 0xfffffffffffffffc 3
read 0xfffffffffffffffc 0
read 0xfffffffffffffffc 4
read 0xffffffffffffefff 2
harvest
