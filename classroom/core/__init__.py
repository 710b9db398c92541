"""The base of all of `./class`: the proved program, labs, journals, records, folders of runs, and counts."""
