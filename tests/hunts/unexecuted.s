# Looks once whether a message has come, and takes one of two paths: lines 8 and 9 if it has come, line 10 if it is late. No run executes the ten lines 12, 14, 17,
# 20, 22, 24, 26, 28, 30 and 32. They make nine spans, since the comment and the empty line between lines 14 and 17 have no instruction. Nor have `.long` lines.
	.text
_start:	il	$6,1
	il	$7,2
	rchcnt	$3,$ch29		# 0 or 1
	brz	$3,late
	il	$4,1
	br	met
late:	il	$4,2
met:	brz	$0,a			# is taken: $0 is 0, also below
	il	$5,1
a:	brz	$0,b
	il	$5,2
# a comment

	il	$5,3
	.long	0
b:	brz	$0,c
	il	$5,4
c:	brz	$0,d
	il	$5,5
d:	brz	$0,e
	il	$5,6
e:	brz	$0,f
	il	$5,7
f:	brz	$0,g
	il	$5,8
g:	brz	$0,h
	il	$5,9
h:	brz	$0,i
	il	$5,10
i:	stop	1
	.long	1
	.data
	.long	2
