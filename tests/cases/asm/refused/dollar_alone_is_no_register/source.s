/* x */ .ident "$" # $
il $,1
