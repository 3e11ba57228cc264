"""Tries mutants: bodies with one mistake each, which the contracts must refuse."""
