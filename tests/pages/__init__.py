"""Tests of the documents against the program and the files that they tell of."""
