# A block of main memory is moved: GET into the local store, PUT from there to another place, without waiting in between.
# The fence of PUTF orders it behind the earlier commands of its tag, so its pieces read what the GET brought.
# Without the fence it is a race, no_fence_race.s, and so it is with another tag, two_tags_race.s.
	.text
_start:	ila	$3,block
	wrch	$ch16,$3	# MFC_LSA; MFC_EAL is 0
	il	$4,128
	wrch	$ch19,$4	# MFC_Size
	il	$5,1
	wrch	$ch20,$5	# MFC_TagID: 1
	il	$6,0x40
	wrch	$ch21,$6	# MFC_Cmd: GET of the block from 0
	wrch	$ch18,$4	# MFC_EAL: 128
	il	$5,1
	wrch	$ch20,$5	# MFC_TagID: 1, the same
	il	$7,0x22		# with a fence
	wrch	$ch21,$7	# MFC_Cmd: PUTF of the block to 128, behind the GET
	il	$8,6
	wrch	$ch22,$8	# MFC_WrTagMask: tags 1 and 2
	il	$9,2
	wrch	$ch23,$9	# MFC_WrTagUpdate: when nothing of them is outstanding
	rdch	$10,$ch24
	stop	1

	.data
	.align	7
block:	.space	128
