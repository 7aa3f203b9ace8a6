_start: il $8,2
	il $7,3
	ila $3,list
	wrch $ch16,$3
	wrch $ch18,$3
	il $5,16
	wrch $ch19,$5
	il $4,1
	wrch $ch20,$4
	il $6,0x44
	wrch $ch21,$6
	wrch $ch22,$7
	wrch $ch23,$8
	rdch $9,$ch24
	stop 1
	.data
	.align 4
list: .long 0x80000010,0,0x00000010,0
