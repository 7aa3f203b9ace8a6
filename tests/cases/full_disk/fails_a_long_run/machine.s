il $3,58
il $4,-1
again: a $3,$3,$4
brnz $3,again
stop 0
