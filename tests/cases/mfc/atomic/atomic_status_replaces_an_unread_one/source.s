ila $3,0x1000
wrch $ch16,$3
rchcnt $4,$ch27
il $5,0xd0
wrch $ch21,$5
il $6,0xb0
wrch $ch21,$6
il $7,0xb4
wrch $ch21,$7
rchcnt $8,$ch21
wrch $ch21,$6
nop
nop
nop
nop
rchcnt $9,$ch27
rdch $10,$ch27
rchcnt $11,$ch27
rdch $12,$ch27
