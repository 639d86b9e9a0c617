"""What the program knows: objects, text, terms, formulas, theories, proofs by the twelve methods, runs."""
