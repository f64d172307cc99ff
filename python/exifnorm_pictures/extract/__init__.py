"""Extracts the metadata blocks of pictures, and judges them."""
