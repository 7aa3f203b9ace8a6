# Double buffering: adds up a table of records of 64 bytes in main memory, in four blocks of eight records.
# While it works on one block in one buffer, the flow controller fetches the next block into the other. Each
# buffer has a tag of its own, its number, so that the program can wait for one buffer and not for the other.
	.text
_start:	il	$3,512
	wrch	$ch19,$3	# MFC_Size: all transfers have 512 bytes
	il	$4,4		# how many blocks are left
	il	$5,0		# the buffer in use, 0 or 1
	il	$6,0		# where the latest fetched block is in main memory
	il	$7,0		# the sum, in four words
	il	$8,0x40		# GET
	il	$9,2		# a tag update when all groups of the mask are done
	il	$10,1
	ila	$11,buffers
	wrch	$ch16,$11	# MFC_LSA: buffer 0
	wrch	$ch18,$6	# MFC_EAL: block 0
	wrch	$ch20,$5	# MFC_TagID: 0
	wrch	$ch21,$8	# MFC_Cmd: fetches the first block

block:	ai	$4,$4,-1
	brz	$4,wait		# this is the last block: there is no next one
	xori	$12,$5,1	# the other buffer
	shli	$13,$12,9	# times 512
	a	$13,$13,$11
	a	$6,$6,$3
	wrch	$ch16,$13	# MFC_LSA
	wrch	$ch18,$6	# MFC_EAL
	wrch	$ch20,$12	# MFC_TagID: the number of the other buffer
	wrch	$ch21,$8	# MFC_Cmd: fetches the next block

wait:	shl	$14,$10,$5	# the bit of this buffer's tag
	wrch	$ch22,$14	# MFC_WrTagMask: this buffer alone
	wrch	$ch23,$9	# MFC_WrTagUpdate
	rdch	$15,$ch24	# MFC_RdTagStat: waits for this buffer; the other may still be filled

	shli	$16,$5,9
	a	$16,$16,$11	# the address of this buffer
	il	$17,8		# records
add:	lqd	$18,0($16)	# the first quadword of a record
	a	$7,$7,$18
	ai	$16,$16,64	# the next record
	ai	$17,$17,-1
	brnz	$17,add

	xori	$5,$5,1		# the buffers change places
	brnz	$4,block
	stqd	$7,0($11)	# the sum, where the states show it
	stop	1

	.data
	.align	7		# a line of 128 bytes, so that a block is moved in four pieces
buffers: .space	1024
