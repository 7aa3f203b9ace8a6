il $3,80
wrch $ch30,$3
stop 0
