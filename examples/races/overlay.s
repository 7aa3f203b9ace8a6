# Brings instructions from main memory, and goes on with them when they are there. Without the line that waits it is a race: overlay_race.s.
	.text
_start:	ila	$3,patch
	wrch	$ch16,$3	# MFC_LSA; the address is 0, and so is the tag
	il	$4,16
	wrch	$ch19,$4	# MFC_Size
	il	$5,0x40
	wrch	$ch21,$5	# MFC_Cmd: GET, of instructions
	il	$6,1
	wrch	$ch22,$6	# MFC_WrTagMask: tag 0
	il	$7,2
	wrch	$ch23,$7	# MFC_WrTagUpdate: when all of it is done
	rdch	$8,$ch24		# MFC_RdTagStat: waits for the GET
	br	patch

	.org	0x80
patch:	stop	2		# what the GET brings is `stop 1`
	lnop
	lnop
	lnop
