	stop 1
