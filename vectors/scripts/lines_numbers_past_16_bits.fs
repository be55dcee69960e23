# The numbers of blocks and queues have 64 bits: none is another one's low 16 or 32 bits.
queue 4 0 0x100 0x200
region 0 0x1000
alias 0x1000 65536
alias 0x1000 0x100000000
alias 0x1000 0xffffffffffffffff
kick 65536 1
kick 0x100000000 1
kick 0xffffffff00000000 0
reset 65536 4 0 0x100 0x200
reset 0x100000000 4 0 0x100 0x200
alias 0x1000 0
kick 0 1
