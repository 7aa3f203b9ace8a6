# Rounds of a PUT, some work, and the PUT's tag status; behind the last one the buffer is written while one more PUT may still read it: a race.
_start:	ila	$3,buffer
	ila	$30,COUNT
	il	$11,1
	il	$12,2
	wrch	$ch22,$11	# MFC_WrTagMask: tag 0
round:	brsl	$lr,put
	il	$20,58
work:	ai	$20,$20,-1
	brnz	$20,work
	wrch	$ch23,$12	# MFC_WrTagUpdate
	rdch	$13,$ch24	# MFC_RdTagStat
	stqd	$30,0($3)
	ai	$30,$30,-1
	brnz	$30,round
	brsl	$lr,put
	stqd	$30,0($3)
	stop	1

put:	wrch	$ch16,$3	# MFC_LSA
	il	$4,0
	wrch	$ch18,$4	# MFC_EAL
	il	$5,16
	wrch	$ch19,$5	# MFC_Size
	il	$6,0x20
	wrch	$ch21,$6	# MFC_Cmd: PUT
	bi	$lr
	.data
	.align	7
buffer:	.space	16
