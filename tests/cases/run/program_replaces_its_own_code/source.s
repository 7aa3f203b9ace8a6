lqa $4,patch
stqa $4,0x10
nop
nop
stop 1
.data
patch: .long 2,0,0,0
