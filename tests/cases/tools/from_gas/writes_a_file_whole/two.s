	stop
