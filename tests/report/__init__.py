"""Tests of mkcheck-report."""
