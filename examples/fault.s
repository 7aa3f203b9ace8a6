# Fetches 32 bytes into a block that isn't aligned: the command is refused, and the processor has a DMA fault.
	.text
_start:	ila	$3,block
	wrch	$ch16,$3	# MFC_LSA
	il	$4,0x100
	wrch	$ch18,$4	# MFC_EAL
	il	$5,32
	wrch	$ch19,$5	# MFC_Size
	il	$6,1
	wrch	$ch20,$6	# MFC_TagID
	il	$7,0x40
	wrch	$ch21,$7	# MFC_Cmd, at 0x24: GET is tested here
	stop	1		# is never made

	.data
count:	.long	0
block:	.space	32		# at 0x84; a line `.align 4` before it mends the fault
