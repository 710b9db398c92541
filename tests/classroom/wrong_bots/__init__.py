"""Bots with one mistake each, as students make them. Each changes a part of the correct bot in `base.py`."""
