il $3,7
stop 7
