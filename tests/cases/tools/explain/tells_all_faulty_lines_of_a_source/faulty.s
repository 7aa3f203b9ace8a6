_start:	IL	$3,1
	il	$3,017
grüße:	nop
	/* a comment
	of several lines */	lnop
	fa	$3,$4,$5
1:	br	1b
	.zero	4
	.byte	1
	.align	16
	il	$3
	nop	127
	br	.+8
	il	$3,2*3
	wrch	$MFC_Cmd,$3
x:	lnop
x:	lnop
	.comm	buffer,16,16
	.uleb128 1
	.org	2
	.org	0
	brsl	$lr,printf
	lqd	$3,8($sp)
	ai	$3,$3,512
	ila	$3,buffer
	.long	1,late,2
	.ascii	"a"
	count = 4
	br	6
	.data
	.byte	1,256
	lnop
	.short	y
	.string	"a", "b"
	.string	"a
	.ascii "\x41"
	.ascii "\\\400"
