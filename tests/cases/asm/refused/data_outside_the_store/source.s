.org 262144
.data
.byte 0
