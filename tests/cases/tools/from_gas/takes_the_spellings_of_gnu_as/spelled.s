	TEXT
	GLOBL	f
	.GLOBL	g
N = 7				# a register below
	.equiv	M,8
f:	ai	sp,SP,-32
	lqd	lr,16(sp)
	a	3,4,$(5)
	a	$(1+2),$N,M
	stqd	$lr,16*(2+1)($(0))
	lqd	$3,($4)
	lqd	$3,(2)*16(1)
	a	$3,$rp,fp
	.eqv	twice,base+base
	.set	base,1
	il	$3,twice
	.set	base,5
	il	$3,twice
	next == .+4
	br	next
	br	next
	il	$3,base==5
	il	$3,base!=5
	il	$3,base<>5
	il	$3,!base
	il	$3,!!base
	il	$3,1<2&&3>=3
	il	$3,0||2*(1<>1)
	il	$3,1+1==2	# + goes before ==
	il	$3,2!~3		# or with the complement
	il	$3,g-f>8
	il	$3,!(g==f)
g:	.p2alignl	4,0
	nop
	.balignl	16,0x200000
	nop
	.balignw	32,0x4020
	nop
	.align	3,0
	.align	3,0
	.p2align	4,0,3
	nop
	wrch	$MFC_Cmd,4
	wrch	21,$4
	rdch	$3,$(24)
	stop
	DATA
	ALIGN	4
x:	LONG	1,2
	Half	3
	.p2alignl	3,0
	WORD	x
	SPACE	4
	ASCIZ	"abc"
	END
