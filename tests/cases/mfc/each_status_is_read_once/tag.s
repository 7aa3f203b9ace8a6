il $3,5
wrch $ch22,$3
wrch $ch23,$0
rchcnt $4,$ch24
rdch $5,$ch24
rchcnt $6,$ch24
rdch $7,$ch24
stop 0
