"""The report on a catalogue: its data and its HTML page."""
