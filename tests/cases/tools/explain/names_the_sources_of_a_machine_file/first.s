	il $3
