# Mappings whose ends fit 64 bits, and mappings whose ends do not.
queue 4 0 0x100 0x200
unmap 0 0x1000
unmap 0 0xffffffffffffffff
unmap 0xfffffffffffffffe 1
unmap 0xffffffffffffffff 0
unmap 0xffffffffffffffff 1
unmap 1 0xffffffffffffffff
harvest
