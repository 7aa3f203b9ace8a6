# 1 "ring.S"
 .text
# 1 "defs.h" 1
 fa $3,$3,$3
# 3 "ring.S" 2
 il $3,1 ; fm $3,$4,$5


 .include "other.s"
