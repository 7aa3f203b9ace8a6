foo
"ab
x
