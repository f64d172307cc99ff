"""The fields of a block: their names and their values as they are shown."""
