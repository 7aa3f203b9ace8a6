stop 7
