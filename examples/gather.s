# Gathers scattered records: four of 16 bytes, which lie in four lines of main memory, come into a table of the
# local store, one behind the other, by one list command. A list stands in the local store, 8 bytes an element:
# a word with the element's size in bytes, and a word with its address in main memory.
	.text
_start:	ila	$3,table
	wrch	$ch16,$3	# MFC_LSA: where the first element's bytes go; the next one's go behind them
	ila	$4,list
	wrch	$ch18,$4	# MFC_EAL: of a list command the address of the list, in the local store
	il	$5,32
	wrch	$ch19,$5	# MFC_Size: of a list command the bytes of the list, 8 for each element
	il	$6,3
	wrch	$ch20,$6	# MFC_TagID: one tag for the whole list
	il	$7,0x44
	wrch	$ch21,$7	# MFC_Cmd: 0x44 is GETL, a GET by a list

	# The list takes one place of the queue, and its group is done when all its elements are.
	il	$8,8
	wrch	$ch22,$8	# MFC_WrTagMask: bit 3, the group of tag 3
	il	$9,2
	wrch	$ch23,$9	# MFC_WrTagUpdate
	rdch	$10,$ch24	# MFC_RdTagStat: waits for the list

	lqd	$11,0($3)	# adds the four records up, word by word
	lqd	$12,16($3)
	lqd	$13,32($3)
	lqd	$14,48($3)
	a	$11,$11,$12
	a	$13,$13,$14
	a	$11,$11,$13
	stqd	$11,64($3)	# the sum, behind the table
	stop	1

	.data
	.org	0x400		# a fixed place, so that the machine file can name it
table:	.space	80
list:	.long	16, 0x080	# the first element: 16 bytes from 0x080
	.long	16, 0x2f0
	.long	16, 0x110
	.long	16, 0x240
