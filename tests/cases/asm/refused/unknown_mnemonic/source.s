.org 2
foo
