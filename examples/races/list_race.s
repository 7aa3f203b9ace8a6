# A list that is written for the next GETL while the first may still read it.
# The race: the flow controller reads an element of a list only when its turn comes, and the `stqa` behind the issue writes the list. What mends it is
# list.s: it waits for the tag, so that the first list is done, before it writes the next one in its place.
	.text
_start:	ila	$3,data
	wrch	$ch16,$3	# MFC_LSA
	ila	$4,list
	wrch	$ch18,$4	# MFC_EAL: the list, in the local store
	il	$5,16
	wrch	$ch19,$5	# MFC_Size: two elements
	il	$6,0x44
	wrch	$ch21,$6	# MFC_Cmd: GETL, of tag 0
	il	$7,1
	wrch	$ch22,$7	# MFC_WrTagMask: tag 0
	il	$8,2
	wrch	$ch23,$8	# MFC_WrTagUpdate: when all of it is done
				# and the status isn't read before the list is used again
	lqa	$9,next
	stqa	$9,list		# the next list, in the same place
	ai	$3,$3,32
	wrch	$ch16,$3
	wrch	$ch21,$6	# MFC_Cmd: GETL
	wrch	$ch23,$8
	rdch	$11,$ch24
	stop	1

	.data
	.org	0x400		# a fixed place, so that the machine file can name it
data:	.space	64
list:	.long	16, 0, 16, 16	# two elements: 16 bytes from 0, and from 16
next:	.long	16, 32, 16, 48
