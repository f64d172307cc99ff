"""What changed between two states of an archive: pictures in pairs, their edits, and groups of these."""
