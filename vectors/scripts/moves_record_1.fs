# A move is no first command and takes no word. The record has 32 bytes, and 32 more for each
# queue.
move
