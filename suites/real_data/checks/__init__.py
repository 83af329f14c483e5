"""Runs of the program, each compared with what it has to answer."""
