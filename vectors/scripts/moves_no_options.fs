# Without INIT no option is agreed on, so the bytes behind the name of MKDIR are not read.
queue 4 0 0x100 0x200
region 0 0x10000
# MKDIR of `d` in the root, and behind the name group 1000, whose header says 7 bytes in place of 16
write 0x1000 42000000090000000200000000000000010000000000000000000000000000000000000000000000
write 0x1028 ed010000000000006400070000002000000001000000e8030000
# Chain 0: reads 66 at 0x1000; writes 144 at 0x2000
write 0 0010000000000000420000000100010000200000000000009000000002000000
write 0x100 000001000000
kick 0 1
read 0x2000 16
# 17 bytes, of which 16 are there
write 0x1032 11
write 0x102 02000000
kick 0 1
# The used index and elements
read 0x202 18
