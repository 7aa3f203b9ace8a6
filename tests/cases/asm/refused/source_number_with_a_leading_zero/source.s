foo
il $3,012
