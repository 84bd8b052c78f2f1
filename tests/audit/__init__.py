"""Tests of mkcheck-audit, over small projects under GNU make and ninja."""
