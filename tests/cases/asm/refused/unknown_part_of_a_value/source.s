ila $3,x@m
