"""What the blocks of a picture mean: accepted or refused, with their fields, repairs in memory, and what MakerNotes hold."""
