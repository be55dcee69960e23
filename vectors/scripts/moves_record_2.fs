# A move is no first command and takes no word. The record has 32 bytes, and 32 more for each
# queue.
queue 4 0 0x100 0x200
move 1
