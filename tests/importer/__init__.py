"""Tests of mkcheck-import."""
