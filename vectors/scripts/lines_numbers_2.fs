# A number at its limit, in decimal or hexadecimal digits, with leading zeros.
queue 4 0 0x100 0x200
read 0xFFFFffffFFFFffff 0x0
