# Three processors with two races. Each puts its block to the same place, which nothing keeps apart: this comes in every run, and is one race, whichever two
# processors have it. Then each raises a counter by GETLLAR and PUTLLC, while a GET of that block is on its way. Behind a PUTLLC that is lost it looks at the block
# and hasn't waited for it: this comes in some runs alone.
	.text
_start:	ila	$3,block
	wrch	$ch16,$3	# MFC_LSA; the tag is 0
	il	$4,128
	wrch	$ch18,$4	# MFC_EAL
	wrch	$ch19,$4	# MFC_Size
	il	$5,0x20
	wrch	$ch21,$5	# MFC_Cmd: PUT of the block
	brsl	$lr,wait
	il	$5,0x40
	il	$4,256
	wrch	$ch18,$4	# MFC_EAL
	wrch	$ch21,$5	# MFC_Cmd: GET of another block
	ila	$3,line
	wrch	$ch16,$3	# MFC_LSA
	il	$4,0
	wrch	$ch18,$4	# MFC_EAL
raise:	il	$5,0xd0
	wrch	$ch21,$5	# MFC_Cmd: GETLLAR
	rdch	$6,$ch27	# MFC_RdAtomicStat
	lqa	$6,line
	ai	$6,$6,1
	stqa	$6,line
	il	$5,0xb4
	wrch	$ch21,$5	# MFC_Cmd: PUTLLC
	rdch	$6,$ch27	# MFC_RdAtomicStat: 0 where it stored
	brz	$6,done
	lqa	$8,block	# another processor was faster
	br	raise
done:	brsl	$lr,wait
	lqa	$8,block
	stop	1

# Waits for the block.
wait:	il	$5,1
	wrch	$ch22,$5	# MFC_WrTagMask: tag 0
	il	$5,2
	wrch	$ch23,$5	# MFC_WrTagUpdate: when all of it is done
	rdch	$5,$ch24	# MFC_RdTagStat
	bi	$lr

	.data
	.align	7
line:	.space	128
block:	.space	128
