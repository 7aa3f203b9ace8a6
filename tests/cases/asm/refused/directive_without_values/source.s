.long
