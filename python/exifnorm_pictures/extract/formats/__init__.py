"""Readers of picture formats, one file for each: they return the metadata blocks of a picture unchanged."""
