# Every reason for `badlayout`. The next `queue` line may be a good one.
queue 3 0 0 0
queue 0 0 0 0
queue 4 8 0x100 0x200
queue 1 0 0x100 0xfffffffffffffffc
queue 4 0 0x100 0x200
queue 65535 0 0 0
harvest
