	il	$3
	.skip	262140
	lnop
	lnop
	lnop
