# A comment and an empty line count as lines. A command other than `queue` needs a queue.
#

harvest