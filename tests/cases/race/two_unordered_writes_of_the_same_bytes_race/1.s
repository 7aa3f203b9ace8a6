ila $3,0x1000
wrch $ch16,$3
wrch $ch18,$0
il $4,16
wrch $ch19,$4
il $5,0x20
wrch $ch21,$5
stop 0
