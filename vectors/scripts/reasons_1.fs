# The reason why a line is no command, on standard error.
kik 0 1
