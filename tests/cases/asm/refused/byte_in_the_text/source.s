nop
.byte 1
