"""Tools that compare the answers of the programs with those of others."""
