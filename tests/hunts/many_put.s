# Puts a block to address 0 of main memory, and doesn't wait for it.
	.text
_start:	il	$3,16
	wrch	$ch19,$3	# size
	il	$4,0x20		# PUT
	wrch	$ch21,$4
	stop	1
