.data
.org 0x3fff8
il $5,-1
here: brsl $5,here
