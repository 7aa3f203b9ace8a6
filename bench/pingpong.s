# Two processors that signal each other: from _start on the one that begins, from 0x80 on the other. Nobody waits for a command by its tag.
	.text
_start:	il	$5,2		# signal register 1 of processor 1
	wrch	$ch18,$5	# MFC_EAL
	il	$6,4
	wrch	$ch19,$6	# MFC_Size
	il	$8,0xa0		# SNDSIG
begin:	wrch	$ch21,$8	# MFC_Cmd
	rdch	$11,$ch3	# SPU_RdSigNotify1
	br	begin

	.org	0x80
	il	$5,0		# that of processor 0
	wrch	$ch18,$5
	il	$6,4
	wrch	$ch19,$6
	il	$8,0xa0
answer:	rdch	$11,$ch3
	wrch	$ch21,$8
	br	answer
