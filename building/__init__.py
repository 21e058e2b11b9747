"""Builds the programs of crates/, proved or not."""
