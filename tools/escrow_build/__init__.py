"""Builds, proves and packs the program of this repository."""
