nop
il $3
