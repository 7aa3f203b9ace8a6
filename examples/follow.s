# Follows a pointer by a list that stalls. Main memory has a header: how many bytes a text has, and where it is. The list
# has two elements: the first brings the header, the second the text. But what the second one says is known only when
# the header is there. So the first has a flag: behind it the list stalls, and tells the program, which fills in the
# second element and lets the list go on.
	.text
_start:	ila	$3,header
	wrch	$ch16,$3	# MFC_LSA
	ila	$4,list
	wrch	$ch18,$4	# MFC_EAL: the address of the list, in the local store
	il	$5,16
	wrch	$ch19,$5	# MFC_Size: two elements
	il	$6,5
	wrch	$ch20,$6	# MFC_TagID
	il	$7,0x44
	wrch	$ch21,$7	# MFC_Cmd: 0x44 is GETL

	rdch	$8,$ch25	# MFC_RdListStallStat: waits for a stall; bit 5, 0x20, says a list of tag 5
	lqd	$9,0($3)	# the header, which is here now: a size and an address, as an element has them
	rotqbyi	$9,$9,8		# as the last two words of a quadword
	lqd	$10,0($4)	# the list: its first element is done
	fsmbi	$11,0x00ff	# selects the last 8 bytes
	selb	$10,$10,$9,$11
	stqd	$10,0($4)	# the second element is read from the store when the list comes to it
	wrch	$ch26,$6	# MFC_WrListStallAck: the lists of tag 5 go on

	il	$12,0x20
	wrch	$ch22,$12	# MFC_WrTagMask: the group of tag 5
	il	$13,2
	wrch	$ch23,$13	# MFC_WrTagUpdate
	rdch	$14,$ch24	# MFC_RdTagStat: waits for the list; a stalled list would never be done
	stop	1

	.data
	.org	0x400		# a fixed place, so that the machine file can name it
header:	.space	16
text:	.space	48
list:	.long	0x80000010, 0x100	# 16 bytes, and the first bit, the flag
	.long	0, 0			# to be filled in
