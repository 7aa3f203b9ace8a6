"""Which named guarantees of public functions a proof, or a mutant, depends on: the modules of tests/clauses."""
