il $3,0x40
il $4,8
wrch $ch19,$4
il $5,0xc0
wrch $ch21,$3
wrch $ch21,$5
wrch $ch21,$3
stop 0
