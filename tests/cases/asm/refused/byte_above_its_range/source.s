.data
.byte 256
