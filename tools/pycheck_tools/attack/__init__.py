"""Tools that search for modules that the programs answer otherwise than they may."""
