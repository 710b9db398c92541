"""After a class: marks, totals, and what a student's connections did."""
