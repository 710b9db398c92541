"""Proves and builds the programs of a clone, on all processors. Uses the proofs that this machine has made before."""
