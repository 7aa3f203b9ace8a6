# A block of main memory is moved: a GET into the local store, a PUT from there to another place, both of tag 1, without waiting in between.
# The race: the pieces of the PUT read the block that those of the GET write. Commands go in any order, those of one tag too, so the PUT may take the
# block before the GET has brought it. What mends it is fence.s: a PUTF, which comes after the earlier commands of its tag.
	.text
_start:	ila	$3,block
	wrch	$ch16,$3	# MFC_LSA; MFC_EAL is 0
	il	$4,128
	wrch	$ch19,$4	# MFC_Size
	il	$5,1
	wrch	$ch20,$5	# MFC_TagID: 1
	il	$6,0x40
	wrch	$ch21,$6	# MFC_Cmd: GET of the block from 0
	wrch	$ch18,$4	# MFC_EAL: 128
	il	$5,1
	wrch	$ch20,$5	# MFC_TagID: 1, the same
	il	$7,0x20		# without a fence
	wrch	$ch21,$7	# MFC_Cmd: PUT of the block to 128
	il	$8,6
	wrch	$ch22,$8	# MFC_WrTagMask: tags 1 and 2
	il	$9,2
	wrch	$ch23,$9	# MFC_WrTagUpdate: when nothing of them is outstanding
	rdch	$10,$ch24
	stop	1

	.data
	.align	7
block:	.space	128
