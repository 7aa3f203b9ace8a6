	.set	SIZE,0x10
COUNT = SIZE/4+1
	.equ	offset,-(2*SIZE)	# used below
f:	IL	$3,010+'a'; il $4,'\n'
	il	$5,1<<2+1	# 5: << goes before +
	il	$6,1|6&4	# from left to right: (1|6)&4
	il	$7,-7/2
	il	$8,-7%3
	il	$9,~SIZE
	lqd	$10,offset($SP)
	lqd	$11,($3)
	ila	$12,table+COUNT*4-4
	ilhu	$13,table@h
	iohl	$13,table+2+2@l
	ilhu	$14,0x12345678@h
	wrch	$MFC_Cmd,$3
	rdch	$3,$ch24
	br	.+8
	br	8		# a distance
	bra	8		# an address
	brnz	$3,1f
0:	brz	$3,0b
1:	stop
there = .
	il	$3,length
	il	$4,there-f
	syncc
	.data
text:	.ascii	"a\x41\b", "b"
	.asciz	"c"
length = . - text
	.balign	16
table:	.long	length,end-table,.-table,0b101
	.half	-1,'A'
	.fill	2,4,7
	.fill	3
	.skip	2,0xff
	.space	SIZE
end:	.pushsection .text
	lnop
	.popsection
	.quad	table
	.text
	.previous
	.byte	1
	.quad	-8>>1		# a shift right fills with zeros
	.fill	0,1,8
	.text
	rdch	$3,$MFC_RdListStallStat
	wrch	$MFC_WrListStallAck,$3
	rdch	$3,$MFC_RdAtomicStat
behind:	il	$5,behind-there	# `there = .` takes no bytes
	SYNCC
	HBRP
	.data
	.pushsection .rodata
	.popsection
	.previous
	lnop			# in the text
