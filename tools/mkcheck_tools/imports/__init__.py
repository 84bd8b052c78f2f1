"""The program mkcheck-import: reads a build of GNU make or ninja, and has it recorded and judged as
a plain makefile.
"""
