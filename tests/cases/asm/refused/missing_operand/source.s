il $3
