"""The program mkcheck-audit: has a project's build recorded and judged, and says what to do at the
lines of its own makefiles.
"""
