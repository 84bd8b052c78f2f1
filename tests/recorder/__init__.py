"""Tests of mkcheck-record, and of the rooms below it."""
