"""Designs, their canonical text and their flattening, computed from docs/ alone: what the scripts of ci/ compare the program with."""
