# Brings instructions from main memory, and goes on with them too early.
# The race: the piece of the GET writes the instruction that the processor fetches at `patch`; a fetch reads its four bytes as a load does.
# What mends it is overlay.s: it waits for the tag before it goes there.
	.text
_start:	ila	$3,patch
	wrch	$ch16,$3	# MFC_LSA; the address is 0, and so is the tag
	il	$4,16
	wrch	$ch19,$4	# MFC_Size
	il	$5,0x40
	wrch	$ch21,$5	# MFC_Cmd: GET, of instructions
	il	$6,1
	wrch	$ch22,$6	# MFC_WrTagMask: tag 0
	il	$7,2
	wrch	$ch23,$7	# MFC_WrTagUpdate: when all of it is done
				# and the status isn't read before the instructions are used
	br	patch

	.org	0x80
patch:	stop	2		# what the GET brings is `stop 1`
	lnop
	lnop
	lnop
