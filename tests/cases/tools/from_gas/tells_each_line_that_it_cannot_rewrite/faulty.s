	fa	$3,$4,$5
	lnop
	.macro	twice
	.byte	1
	il	$3,x+y
	il	$3,x*2
	il	$3,1/0
	br	1b
	a	$3,$4
	il	$3,(1
	.align	x
	.popsection
	.comm	x,4,3
	il	$3,later
later = nowhere-4
	.byte	'a
	.set	a,b
	.set	b,a
	il	$3,a
	.data
	.float	1.0
	.ascii	x
g:	.balign	512
	.long	f-g
	.long	09
f:
	.space	8192,1
	.skip	-1
	.text
	a	3,$4,$5
	lqd	$3,$4
	il	$3,1_000
	il	$3,'
	il	$3,1 2
	.align	13
	.text	1
	a	$3,$4,$128
	rdch	$3,$SPU_RdDec
	lqd	$3,0($x)
	.data
	.ascii	"\xg"
	.align	4,1
	.balign	16,,8
	.fill	1,16
	.fill	1,8,7
	.text
	.align	3,x
	.rept	2
	fa	$3,$4,$5
	.endr
	MACRO	thrice reg
	fm	\reg,\reg,\reg
	.macro	within
	.endm
	.endm
	Thrice	$3
	.if	1
	nop
	.else
	dfa	$3,$4,$5
	.endif
	.endif
	il	$3,MFC_DECREMENTER_EVENT
	iret
	binze	$3,$4
	stopd	$3,$4,$5
	mfspr	$3,$sp1
	wrch	$MFC_WrMSSyncReq,$3
	il	$3,MFC_PUTR_CMD
	a	$3,x,$4
	a	$3,$(64*2),$4
	lqd	$3,(16)
	il	$3,!f
	il	$3,f==y
	nonsense
	.nonsense
	.fill	70000,4,0
	.space	262145
	.org	262148
	.comm	vast,262145
	end
	nonsense
