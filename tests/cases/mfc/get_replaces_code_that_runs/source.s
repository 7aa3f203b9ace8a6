il $3,0x80
wrch $ch16,$3
il $4,16
wrch $ch19,$4
il $5,0x40
wrch $ch21,$5
br again
.org 0x80
again: br again
