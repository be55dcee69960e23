# The reason why a line is no command, on standard error.
queue 0x10000 0 0x100 0x200
