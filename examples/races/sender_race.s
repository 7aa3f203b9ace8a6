# Puts a block into main memory, and tells the host that it is there too early.
# The race: the pieces of this PUT write the block that those of receiver.s' GET read. The word that goes through the mailboxes orders what this
# processor did before it, but the PUT was only issued then. What mends it is sender.s: it waits for the tag before it sends the word.
	.text
_start:	ila	$3,block
	il	$4,7
	stqd	$4,0($3)
	wrch	$ch16,$3	# MFC_LSA; the address is 0, and so is the tag
	il	$5,16
	wrch	$ch19,$5	# MFC_Size
	il	$6,0x20
	wrch	$ch21,$6	# MFC_Cmd: PUT
	il	$7,1
	wrch	$ch22,$7	# MFC_WrTagMask: tag 0
	il	$8,2
	wrch	$ch23,$8	# MFC_WrTagUpdate: when all of it is done
				# and the status isn't read before the word is sent
	wrch	$ch28,$7	# SPU_WrOutMbox: tells the host that the block is in main memory
	stop	1

	.data
	.align	7
block:	.space	16
