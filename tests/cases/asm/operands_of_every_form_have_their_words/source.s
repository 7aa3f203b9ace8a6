x: br 262140
brsl $lr,12
lqd $4,-16($0)
stqd $0,16($1)
stqd $sp,8176($lr)
cbd $2,-64($3)
a $3,$4,$127
selb $1,$2,$3,$4
clz $5,$6
heq $7,$8
bi $lr
lqa $9,0x3fffc
bra 16
il $3,-32768
ilhu $3,65535
ila $3,262143
ai $3,$3,-512
andbi $1,$2,255
andbi $1,$2,-128
shli $1,$2,-64
shli $1,$2,127
heqi $1,511
stop 0x3fff
rdch $3,$ch24
rchcnt $3,127
wrch $ch16,$3
wrch 0x15,$3
nop
nop $5
lnop
lr $3,$4
hbr x,$3
hbra x,x
hbrr x,x+4
