il $3,0
il $4,3
again: a $3,$3,$4
ai $4,$4,-1
brnz $4,again
stop 0x3fff
