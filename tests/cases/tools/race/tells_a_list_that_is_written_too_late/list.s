# The list is written behind its issue: its elements may be read before.
	.text
_start:	ila	$3,buffer
	wrch	$ch16,$3	# MFC_LSA
	ila	$4,list
	wrch	$ch18,$4	# MFC_EAL: the list's address
	il	$5,8
	wrch	$ch19,$5	# MFC_Size: one element
	il	$6,3
	wrch	$ch20,$6	# MFC_TagID
	il	$7,0x44
	wrch	$ch21,$7	# MFC_Cmd: GETL
	lqa	$8,element
	stqa	$8,list
	stop	1
	.data
	.align	4
element: .long	16,128,0,0
list:	.space	16
buffer:	.space	16
