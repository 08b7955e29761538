"""Tools that measure the cost of the programs and their proofs."""
