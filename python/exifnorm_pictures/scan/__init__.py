"""Finds the pictures of an archive and looks at each, in one process, in several, or, a folder each, in a cluster."""
