"""Runs commands: folders and their copies, mount namespaces, progress, and ends by a signal."""
