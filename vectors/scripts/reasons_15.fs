# The reason why a line is no command, on standard error.
move
