_start: il $3,0x200
	wrch $ch16,$3
	il $4,0
	wrch $ch18,$4
	il $5,16
	wrch $ch19,$5
	wrch $ch20,$4
	il $6,0x40
	wrch $ch21,$6
	il $7,1
	wrch $ch22,$7
	il $8,2
	wrch $ch23,$8
	rdch $9,$ch24
	rdch $10,$ch24
	stop 1
