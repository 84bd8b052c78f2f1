"""Asks the program mkcheck, and reads its answers."""
