"""The commands, a module for each: its `run` gets the parsed line, and returns the status."""
