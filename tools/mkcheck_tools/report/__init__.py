"""The program mkcheck-report: shows answers as a page, as SARIF, and as a graph for Graphviz."""
