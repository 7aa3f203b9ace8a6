	lnop	# what stood there
