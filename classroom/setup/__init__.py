"""Before a class: labs from class lists, slips (the data that each student needs to connect), keys, and checks of
labs."""
