il $3,0x4000
wrch $ch16,$3
il $4,0x4000
wrch $ch19,$4
il $5,0x40
il $6,16
again: wrch $ch21,$5
ai $6,$6,-1
brnz $6,again
rchcnt $8,$ch21
ila $9,0x1080
wrch $ch16,$9
il $10,0xd0
wrch $ch21,$10
rdch $11,$ch27
stop 1
