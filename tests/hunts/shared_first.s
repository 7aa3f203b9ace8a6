# What the programs beside it have in common.
.data
.org 0x2000
.byte 1
