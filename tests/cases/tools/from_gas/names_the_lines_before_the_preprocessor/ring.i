# 0 "ring.S"
# 0 "<built-in>"
# 0 "<command-line>"
# 1 "/usr/include/stdc-predef.h" 1 3 4
# 0 "<command-line>" 2
# 1 "ring.S"



# 1 "defs.h" 1

 nop
# 5 "ring.S" 2
 .text
_start: il $3,16
 wrch $ch16,$3 ; wrch $ch18,$3
# 40 "a \"b\".S"
 stop 1 # the end
