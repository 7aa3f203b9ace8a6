# The word behind the instructions spells none.
	nop
