	br	word
	.data
word:
	.long	0x58800000
