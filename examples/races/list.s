# A list that is written for the next GETL only when the first is done: the status orders the readings of the first one's elements before what
# follows its reading. Without that line it is a race: list_race.s.
	.text
_start:	ila	$3,data
	wrch	$ch16,$3	# MFC_LSA
	ila	$4,list
	wrch	$ch18,$4	# MFC_EAL: the list, in the local store
	il	$5,16
	wrch	$ch19,$5	# MFC_Size: two elements
	il	$6,0x44
	wrch	$ch21,$6	# MFC_Cmd: GETL, of tag 0
	il	$7,1
	wrch	$ch22,$7	# MFC_WrTagMask: tag 0
	il	$8,2
	wrch	$ch23,$8	# MFC_WrTagUpdate: when all of it is done
	rdch	$10,$ch24	# MFC_RdTagStat: waits for the list
	lqa	$9,next
	stqa	$9,list		# the next list, in the same place
	ai	$3,$3,32
	wrch	$ch16,$3
	wrch	$ch21,$6	# MFC_Cmd: GETL
	wrch	$ch23,$8
	rdch	$11,$ch24
	stop	1

	.data
	.org	0x400		# a fixed place, so that the machine file can name it
data:	.space	64
list:	.long	16, 0, 16, 16	# two elements: 16 bytes from 0, and from 16
next:	.long	16, 32, 16, 48
