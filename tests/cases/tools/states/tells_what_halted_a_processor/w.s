_start: il $3,5
	heqi $3,6
	hlgti $3,-1
	rdch $4,$ch29
	stop 1
