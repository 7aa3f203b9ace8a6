# Doubles a word.
/* It stands in $3,
 * and so does the result. */
	.global	double		# for other files
double:	a $3,$3,$3 ; bi $lr	# two statements
1:	br	1b /* never */	# here
	.section .debug_line
	.long	1	# left out
	.text
	.set	SIZE,4	# bytes
	il	$4,SIZE
