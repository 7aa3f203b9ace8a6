br y
