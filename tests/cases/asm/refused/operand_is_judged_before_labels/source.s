x:
x: il $3
