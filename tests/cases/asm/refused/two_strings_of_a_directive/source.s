.data
.ascii "a","b"
