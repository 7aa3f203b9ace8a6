# A loop that issues a command of 16 bytes into one place and never waits for it: its transfers race with one another.
	.text
_start:	ila	$3,0x8000
	wrch	$ch16,$3	# MFC_LSA
	il	$4,0
	wrch	$ch18,$4	# MFC_EAL
	il	$5,16
	wrch	$ch19,$5	# MFC_Size
	il	$6,0
	wrch	$ch20,$6	# MFC_TagID
	il	$8,COMMAND
again:	wrch	$ch21,$8	# MFC_Cmd
	br	again
