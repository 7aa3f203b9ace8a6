# The count is always 1.
	rchcnt	$3,$ch12
	stop	1
