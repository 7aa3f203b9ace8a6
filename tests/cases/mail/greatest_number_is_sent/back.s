il $4,3
again: rdch $3,$ch29
wrch $ch28,$3
ai $4,$4,-1
brnz $4,again
stop 1
