# A loop that issues sixteen GETLs with one list of 64 elements, 16 bytes of every second line of a block of 16,384
# bytes, waits for all of them by their tag, and begins again. Each element is one reading and one piece.
	.text
_start:	lqa	$3,pair
	lqa	$4,step
	ila	$5,list
	il	$6,32
build:	stqd	$3,0($5)	# two elements at once
	a	$3,$3,$4
	ai	$5,$5,16
	ai	$6,$6,-1
	brnz	$6,build

	ila	$7,list
	wrch	$ch18,$7	# MFC_EAL: the list
	il	$8,512
	wrch	$ch19,$8	# MFC_Size: 64 elements
	il	$9,5
	wrch	$ch20,$9	# MFC_TagID
	il	$10,0x20
	wrch	$ch22,$10	# MFC_WrTagMask: the group of tag 5
	il	$11,0x44	# GETL
	il	$12,2		# a tag update when all groups of the mask are done
	il	$13,1024
round:	ila	$14,block
	il	$15,16
issue:	wrch	$ch16,$14	# MFC_LSA
	wrch	$ch21,$11	# MFC_Cmd
	a	$14,$14,$13
	ai	$15,$15,-1
	brnz	$15,issue
	wrch	$ch23,$12	# MFC_WrTagUpdate
	rdch	$16,$ch24	# MFC_RdTagStat: waits for all sixteen
	br	round

	.data
	.align	7
pair:	.long	16, 0, 16, 256
step:	.long	0, 512, 0, 512
list:	.space	512
block:	.space	16384
