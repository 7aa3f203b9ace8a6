.org 262144
nop
