# A kick of a queue without memory, kicks of the stopped queue, and a last line without a line
# feed.
queue 4 0 0x100 0x200
kick 0 1
kick 0 1
kick 0 0
harvest