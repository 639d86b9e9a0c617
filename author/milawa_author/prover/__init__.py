"""Finding proofs: cases and equality, values of ground terms, obligations, induction."""
