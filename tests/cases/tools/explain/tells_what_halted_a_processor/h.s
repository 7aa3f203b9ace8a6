_start: il $3,-1
	il $4,2
	hlgt $4,$3
	rdch $5,$ch29
	hgti $5,6
	stop 1
