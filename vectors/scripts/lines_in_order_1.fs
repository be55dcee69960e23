# Empty lines and comments are skipped, and every line counts. `queue` lines come first.


# harvest
#
