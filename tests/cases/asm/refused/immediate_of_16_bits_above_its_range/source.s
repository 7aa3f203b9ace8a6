nop
il $3,40000
