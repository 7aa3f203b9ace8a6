ila $5,0x1000
il $7,100
loop: wrch $ch16,$5
wrch $ch18,$0
il $8,0xD0
wrch $ch21,$8
rdch $9,$ch27
lqd $10,0($5)
ai $10,$10,1
stqd $10,0($5)
il $8,0xB4
wrch $ch21,$8
rdch $9,$ch27
brnz $9,loop
ai $7,$7,-1
brnz $7,loop
stop 0
