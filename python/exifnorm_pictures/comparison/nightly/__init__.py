"""What is new in an archive since the last night."""
