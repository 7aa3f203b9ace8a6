.data
.org 1
.text
.space 6
