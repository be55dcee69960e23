# A script without a command prints nothing.

#
