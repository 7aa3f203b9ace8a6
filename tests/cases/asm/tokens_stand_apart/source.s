a.1:	il $3,0x1F # c
.long a.1/* x */-12
_b:/* " */.data/**/
/* x */.ascii "q\"#\\"
.byte	1,-2# "
