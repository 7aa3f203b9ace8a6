wrch 128,$3
