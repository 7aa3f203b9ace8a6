.org 8
.org 4
