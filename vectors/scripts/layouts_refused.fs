# Every refusal of `region`, `alias` and `unregion`. The block of a refused region stays.
queue 4 0 0x100 0x200
region 0 0xffffffffffffffff
region 0 0
alias 0 0
region 0xffffffffffffffff 2
region 0 0x1000
region 0xfff 2
alias 0x20000 9
alias 0xffffffffffffffff 0
alias 0x20000 2
unregion 0 0xfff
unregion 0x1000 0x1000
unregion 0 0x1000
region 0 1
