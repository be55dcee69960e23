# The reason why a line is no command, on standard error.
queue 4 0 0x 0x200
