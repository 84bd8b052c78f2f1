"""Tests of what is installed and packed."""
