stop 0
