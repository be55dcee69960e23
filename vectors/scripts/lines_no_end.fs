# The last line has no line feed.
queue 4 0 0x100 0x200