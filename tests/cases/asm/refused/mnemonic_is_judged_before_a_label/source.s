br nowhere
foo $1
