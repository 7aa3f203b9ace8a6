il $3,256
wrch $ch19,$3
ila $4,0x800
wrch $ch16,$4
il $5,0x40
wrch $ch21,$5
stop 1
