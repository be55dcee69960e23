# LOOKUP of the file `a`, and READ of what it holds.
# A queue of 4: its descriptor table at 0, its available ring at 0x100, its used ring at 0x200. Memory up to 0xffff.
queue 4 0 0x100 0x200
region 0 0x10000

# LOOKUP (opcode 1, unique 3) of `a` in the root, which is node 1: 42 bytes.
write 0x1000 2a0000000100000003000000000000000100000000000000000000000000000000000000000000006100
# READ (opcode 15, unique 4) of 4096 bytes of node 2: 80 bytes.
write 0x1100 500000000f000000040000000000000002000000000000000000000000000000000000000000000000000000000000000000000000000000001000000000000000000000000000000000000000000000

# Descriptors 0 and 1: LOOKUP's bytes, and room for 144 bytes at 0x2000.
write 0 00100000000000002a0000000100010000200000000000009000000002000000
# Descriptors 2 and 3: READ's bytes, and room for 4112 bytes at 0x3000.
write 0x20 0011000000000000500000000100030000300000000000001010000002000000
# The available ring: flags 0, index 2, and the heads 0 and 2.
write 0x100 0000020000000200

# Both are served, the file system's calls before each.
kick 0 9
# The entry: node 2 is at 0x2010, the file's size of 5 at 0x2040, its mode 0o100644 at 0x2074.
read 0x2000 144
# The header of 16 bytes, and `hello`.
read 0x3000 21
# The used index 2, and the elements: chain 0 with 144 bytes, chain 2 with 21.
read 0x202 18
