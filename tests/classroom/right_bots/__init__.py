"""Correct bots in five styles, which pass every suite."""
