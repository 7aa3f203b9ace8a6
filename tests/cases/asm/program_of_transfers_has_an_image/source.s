	ila $3,0x1000
	ila $4,2048
	il $5,2048
	il $7,3
round:	brz $7,done
	wrch $ch16,$3
	wrch $ch18,$4
	wrch $ch19,$5
	il $8,0x40
	wrch $ch21,$8
	il $8,1
	wrch $ch22,$8
	il $8,2
	wrch $ch23,$8
	rdch $9,$ch24
	il $10,128
	ori $11,$3,0
add:	lqd $12,0($11)
	ai $12,$12,1
	stqd $12,0($11)
	ai $11,$11,16
	ai $10,$10,-1
	brnz $10,add
	il $8,0x20
	wrch $ch21,$8
	il $8,2
	wrch $ch23,$8
	rdch $9,$ch24
	ai $7,$7,-1
	br round
done:	stop 0
