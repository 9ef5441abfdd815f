"""Runs a program over scripts, and compares what it shows word by word. All of these are folders of tests/cases/runs: a
description and a script of a few lines, and the answers, worked out by hand.
"""

PARTS = []
