# A processor that signals itself, and neither reads the register nor waits for a command by its tag.
	.text
_start:	il	$5,0		# signal register 1 of processor 0
	wrch	$ch18,$5	# MFC_EAL
	il	$6,4
	wrch	$ch19,$6	# MFC_Size
	il	$8,0xa0		# SNDSIG
again:	wrch	$ch21,$8	# MFC_Cmd
	br	again
