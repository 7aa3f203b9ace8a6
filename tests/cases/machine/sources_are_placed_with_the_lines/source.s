nop
_start: lnop
.data
.long 0x01020304
