# A loop of 20 instructions of all kinds that compute a register.
_start:	ila	$3,0x12345
	il	$4,-7
	ilhu	$5,0x1234
loop:	a	$6,$3,$4
	sf	$7,$4,$3
	mpy	$8,$3,$4
	mpyh	$9,$5,$3
	addx	$10,$6,$7
	cg	$11,$3,$4
	ceqb	$12,$6,$7
	clgth	$13,$6,$7
	cgti	$14,$6,5
	clz	$15,$6
	cntb	$16,$7
	avgb	$17,$6,$7
	sumb	$18,$16,$17
	nand	$19,$6,$7
	xorbi	$20,$6,0x55
	selb	$21,$6,$7,$12
	shufb	$22,$6,$7,$20
	rotqbyi	$23,$22,5
	shl	$3,$3,$15
	br	loop
