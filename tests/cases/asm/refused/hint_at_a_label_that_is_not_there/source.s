hbrr x,y
x:
