.data
.byte 1
hbr x,$3
