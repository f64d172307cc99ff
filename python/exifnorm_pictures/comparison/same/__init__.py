"""Which pictures are the same: groups of them, and which of a group may stay alone."""
