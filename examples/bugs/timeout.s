# Waits for an answer in signal register 1. After 100 looks without an answer it gives up, and stops with code 2.
# It never gives up: docs/guide/walks.md finds out why.
	.text
_start:
look:	il	$10,100		# how many looks are left
	rchcnt	$3,$ch3		# SPU_RdSigNotify1
	brnz	$3,answer
	ai	$10,$10,-1
	brnz	$10,look

# The time-out.
	il	$4,-1
	stqa	$4,result
	stop	2

answer:	rdch	$4,$ch3
	stqa	$4,result
	stop	1

	.data
result:	.long	0,0,0,0
