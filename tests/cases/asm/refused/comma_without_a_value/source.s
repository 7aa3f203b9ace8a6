.long 1,
