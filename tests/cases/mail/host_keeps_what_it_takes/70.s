il $3,70
wrch $ch28,$3
stop 0
