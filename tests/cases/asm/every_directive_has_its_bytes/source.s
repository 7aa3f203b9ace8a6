.file "a.c" # skipped
.cfi_startproc 1 @
.globl f; .weak
.org 4
.long 1,-1,g+4
g: .align 5
f: .p2align 0
.word f+0x2c000@h, f+1@l
.skip 4
.quad -2
_start: lnop
.data
b: .byte -128,255,b@l
.2byte -1
.hword 1
.short b+2
.align 3
.ascii "a\n\400\7\377\"#"
.asciz "b"
.string ""
.align 2
il $3,-1
.section .text.hot
.int x
.section .bss.cold
x: .space 2
.8byte 18446744073709551615
.4byte b-130
