"""Refused blocks: why they are refused, and how a copy of the picture can be accepted."""
