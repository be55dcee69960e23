# Empty lines and comments are skipped, and every line counts. `queue` lines come first.
map 0 0 1 r
