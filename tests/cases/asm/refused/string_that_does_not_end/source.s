nop
.data
.ascii "ab