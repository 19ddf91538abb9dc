"""Cases that tests and comparisons share, and the voices that judge them."""
