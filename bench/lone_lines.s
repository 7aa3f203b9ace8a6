# A processor that stores one line again and again by PUTQLLUC, and never waits for a command by its tag.
	.text
_start:	il	$5,0
	wrch	$ch18,$5	# MFC_EAL: the line
	il	$6,128
	wrch	$ch19,$6	# MFC_Size
	il	$8,0xb8		# PUTQLLUC
again:	wrch	$ch21,$8	# MFC_Cmd
	br	again
