# The count of the inbound mailbox is 0.
	rchcnt	$3,$ch29
	stop	1
