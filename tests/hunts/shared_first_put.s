# Puts 16 bytes at 0 of main memory, and doesn't wait.
ila $3,0x1000
wrch $ch16,$3
wrch $ch18,$0
il $4,16
wrch $ch19,$4
il $6,0x20
wrch $ch21,$6
stop 1
