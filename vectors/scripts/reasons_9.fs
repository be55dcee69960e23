# The reason why a line is no command, on standard error.
queue 4 0 18446744073709551616 0x200
