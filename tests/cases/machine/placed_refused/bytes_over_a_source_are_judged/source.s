nop
_start: lnop
