"""Runs recipes again in folders that hold what their footprints name, and compares the results."""
