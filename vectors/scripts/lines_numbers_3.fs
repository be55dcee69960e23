# A number at its limit, in decimal or hexadecimal digits, with leading zeros.
queue 4 0 0x100 0x200
read 00000000000000000000000000000018446744073709551615 0
