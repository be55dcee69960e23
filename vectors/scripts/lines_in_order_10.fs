# Empty lines and comments are skipped, and every line counts. `queue` lines come first.
queue 4 0 0x100 0x200
unmap 0 1
queue 4 0 0x100 0x200
