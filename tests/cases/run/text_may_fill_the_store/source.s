.org 262140
nop
_start:
.data
.align 12
