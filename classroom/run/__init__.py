"""A running class: its server, its desk, the connections of students, and the ways of closing steps."""
