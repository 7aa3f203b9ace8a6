ila $3,patch
wrch $ch16,$3
il $4,16
wrch $ch19,$4
il $5,0x40
wrch $ch21,$5
br patch
.org 0x80
patch: stop 2
lnop
lnop
lnop
