"""Rows of the tests, and texts that they read."""
