"""Tests of the commands of `./class` and of its pages. Most of them call the built program, and some need a browser."""
