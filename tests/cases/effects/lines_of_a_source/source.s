_start:	il	$3,1
	# a comment
	lqa	$4,word
	.data
	.ascii	"ab"
	.align	4
word:	.long	7, 8
end:
