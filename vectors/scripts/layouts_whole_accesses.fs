# The guest reads and writes all bytes of an access or none. Regions are refused in the order of SCRIPT's
# numbers; a block is seen at each of its regions.
queue 4 0 0x100 0x200
region 0 0x10000
read 0x10000 1
read 0xffff 2
read 0xffffffffffffffff 1
read 0x10000 0
write 0xffff 0707
read 0xffff 1
write 0x5fff 0708
read 0x5ffe 4
alias 0x20000 0
write 0x25000 0707
read 0x5000 3
# block 1 of two bytes: its region would run past the last address, and is refused, but the block stays
region 0xffffffffffffffff 2
alias 0xffffffffffffffff 7
alias 0xffffffffffffffff 1
alias 0xffff 1
region 0xffffffffffffffff 1
alias 0xffffffffffffffff 2
unregion 0xffffffffffffffff 2
unregion 0xffffffffffffffff 1
unregion 0xffffffffffffffff 1
unregion 0 0xffff
region 0x50000 0
