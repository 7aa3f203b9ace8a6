bra x-8
x:
