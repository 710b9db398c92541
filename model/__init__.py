"""A second opinion: the rules of Cenduwa as a plain program, for whoever doubts the proved one.

It follows the documents, needs nothing but Python 3.11, and prints byte for byte what the proved program prints
(`python3 -B -m model` prints the commands). It is slow, and stores nothing but the world: it computes each answer from
the present registers. Read the modules in this order:

1. `world`: the network, its registers, and the four rules of the algorithm.
2. `lab`: the lab file, and each error of it (`docs/LAB.md`).
3. `requests`: which lines are requests, and what they ask for.
4. `policy`: who may see and do what, a comment for each clause (`docs/PROTOCOL.md`).
5. `report`: what a view shows of the world.
6. `run`: the reply to each line, and scripts.
7. `journal`: the text of the granted events, and the audit (`docs/JOURNAL.md`).
8. `record`: what was asked and answered, and how it is verified (`docs/RECORD.md`).
9. `tally`: the numbers that marks are made of.
10. `words`: the command line; `stored`: the stored outputs of scripts; `explain`: why a move was denied, for people.
"""
from model.fault import Fault
from model.journal import audit
from model.lab import Lab, read_lab
from model.run import Run, play
from model.words import Ended, run_command

__all__ = ["Ended", "Fault", "Lab", "Run", "audit", "play", "read_lab", "run_command"]
