br y
x:
x: nop
