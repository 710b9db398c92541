"""Random runs of the program, compared with the plain model."""
