"""Runs and configurations as pages and pictures, and what the pages of a run that goes on do."""
