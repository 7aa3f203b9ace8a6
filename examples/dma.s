# Brings a block of 256 bytes from main memory into the local store, doubles each word of it there,
# and puts it back at another place. A program reaches main memory by such transfers alone: it sets
# the parameters of a command by channels, then writes the command's opcode to MFC_Cmd.
	.text
_start:	ila	$3,block
	wrch	$ch16,$3	# MFC_LSA: where in the local store
	il	$4,0x100
	wrch	$ch18,$4	# MFC_EAL: where in main memory
	il	$5,256
	wrch	$ch19,$5	# MFC_Size: how many bytes
	il	$6,7
	wrch	$ch20,$6	# MFC_TagID: the group of the command, 0 to 31; this program's choice
	il	$7,0x40
	wrch	$ch21,$7	# MFC_Cmd: 0x40 is GET, main memory to local store

	# The command is only queued. Until its group is done the block may not be used.
	il	$8,0x80
	wrch	$ch22,$8	# MFC_WrTagMask: bit 7, the group of tag 7
	il	$9,2
	wrch	$ch23,$9	# MFC_WrTagUpdate: 2 asks for all groups of the mask
	rdch	$10,$ch24	# MFC_RdTagStat: waits until they have nothing outstanding

	ila	$11,block
	il	$12,16		# sixteen quadwords
again:	lqd	$13,0($11)
	a	$13,$13,$13	# four words at once
	stqd	$13,0($11)
	ai	$11,$11,16
	ai	$12,$12,-1
	brnz	$12,again

	il	$14,0x200
	wrch	$ch18,$14	# MFC_EAL; the other parameters still stand
	il	$15,0x20
	wrch	$ch21,$15	# MFC_Cmd: 0x20 is PUT, local store to main memory
	wrch	$ch23,$9	# MFC_WrTagUpdate: the mask still stands
	rdch	$16,$ch24	# MFC_RdTagStat: the block has gone out
	stop	1

	.data
	.align	7		# a line of 128 bytes: pieces end where lines of main memory do
block:	.space	256
