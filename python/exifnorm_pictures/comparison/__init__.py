"""What is the same and what differs between pictures and between catalogues."""
