# A stopped queue stays stopped after a move.
queue 4 0x20000 0x20100 0x20200
kick 0 1
move
kick 0 1
