"""Lab files, with the values that the program reads from them."""
