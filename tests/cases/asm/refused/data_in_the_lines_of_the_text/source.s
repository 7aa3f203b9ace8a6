nop
.data
.org 0x7f
