# Fetches four blocks by lists, into two buffers in turn. A list stalls behind its first record, so that the work on that one begins while the second one
# isn't there yet; up to two lists stall at a time. Some runs hang: docs/guide/debugging.md finds out why.
	.text
_start:	il	$80,0		# how many blocks are done
	il	$81,0		# the buffer of the next one, and the tag of its list
	il	$82,0		# the stalls that were seen and not used yet, a bit for each tag
	il	$3,0
	brsl	$lr,fetch
again:	ceqi	$83,$80,3	# the last block?
	brnz	$83,begin
	xori	$3,$81,1
	brsl	$lr,fetch	# the block behind it, into the other buffer
begin:	il	$84,1
	shl	$84,$84,$81	# the bit of the tag
look:	and	$85,$82,$84	# has its list stalled?
	brnz	$85,first
	rdch	$82,$ch25	# MFC_RdListStallStat
	br	look
first:	andc	$82,$82,$84
	wrch	$ch26,$81	# MFC_WrListStallAck
	wrch	$ch22,$84	# MFC_WrTagMask
	il	$86,2
	wrch	$ch23,$86	# MFC_WrTagUpdate
	rdch	$86,$ch24	# MFC_RdTagStat: the block is there
	xori	$81,$81,1
	ai	$80,$80,1
	ceqi	$83,$80,4
	brz	$83,again
	stop	1

# Fetches a block by the list of tag $3.
fetch:	ila	$10,buffers
	shli	$11,$3,8
	a	$10,$10,$11
	wrch	$ch16,$10	# MFC_LSA
	ila	$12,lists
	shli	$11,$3,4
	a	$12,$12,$11
	wrch	$ch18,$12	# MFC_EAL
	il	$13,16
	wrch	$ch19,$13	# MFC_Size
	wrch	$ch20,$3	# MFC_TagID
	il	$14,0x44
	wrch	$ch21,$14	# MFC_Cmd: GETL
	bi	$lr

	.data
	.align	7
buffers:
	.space	512
lists:	.long	0x80000080,0,0x80,0x80
	.long	0x80000080,0x100,0x80,0x180
