rchcnt $3,$ch28
rchcnt $4,$ch29
rchcnt $5,$ch30
wrch $ch30,$4
rchcnt $6,$ch30
rchcnt $7,$ch29
wrch $ch29,$3
