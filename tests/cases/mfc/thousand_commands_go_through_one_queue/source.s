il $3,0x1000
wrch $ch16,$3
il $4,16
wrch $ch19,$4
il $5,0x40
il $6,1000
again: wrch $ch21,$5
ai $6,$6,-1
brnz $6,again
stop 0
