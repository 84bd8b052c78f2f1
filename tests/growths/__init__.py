"""Failed allocations of the program, over worked examples."""
