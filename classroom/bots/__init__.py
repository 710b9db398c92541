"""Bots without a class: practising, grading, experiments."""
