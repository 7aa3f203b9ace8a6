rdch $3,$ch3
rchcnt $4,$ch3
rdch $5,$ch3
stop 0
