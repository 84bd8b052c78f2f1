"""Tests of the built program over real files, whose answers need more than a case can say."""
