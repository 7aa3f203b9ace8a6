rdch $3,$ch29
stop 0
