.data
.byte 1
nop
