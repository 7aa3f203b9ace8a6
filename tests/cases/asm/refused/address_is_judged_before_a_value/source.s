br y
.org 2
