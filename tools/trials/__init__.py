"""Trials of the built programs and of the scripts."""
