# Mappings whose ends fit 64 bits, and mappings whose ends do not.
queue 4 0 0x100 0x200
map 0 0 0x1000 none
map 0 0 0x1000 r
map 0x1000 0xffff000000000000 0x1000 w
map 4096 0 4096 rw
map 0 0 0xffffffffffffffff rw
map 0xfffffffffffffffe 0xfffffffffffffffe 1 rw
map 0xffffffffffffffff 0xffffffffffffffff 0 rw
map 0xffffffffffffffff 0 1 rw
map 0 0xffffffffffffffff 1 rw
map 1 0 0xffffffffffffffff none
map 0 1 0xffffffffffffffff none
harvest
