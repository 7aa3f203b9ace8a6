# Brings the same 16 bytes of main memory to one place of the local store after the other, COUNT times, without waiting for any of them.
	.text
_start:	ila	$3,0x400
	il	$4,16
	wrch	$ch19,$4	# MFC_Size; the address is 0, and so is the tag
	ila	$5,COUNT
	il	$6,0x40
again:	wrch	$ch16,$3	# MFC_LSA
	wrch	$ch21,$6	# MFC_Cmd: GET
	ai	$3,$3,16
	ai	$5,$5,-1
	brnz	$5,again
	stop	1
