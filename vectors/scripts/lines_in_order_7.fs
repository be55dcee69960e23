# Empty lines and comments are skipped, and every line counts. `queue` lines come first.
queue 4 0 0x100 0x200
region 0 0
region 0 1
region 1 1
unregion 1 1
