.data
.ascii "a\e"
