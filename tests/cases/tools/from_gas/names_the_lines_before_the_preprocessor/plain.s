one:	il $3,1; /* a */ bi $lr
