nop
.long 012
"a
