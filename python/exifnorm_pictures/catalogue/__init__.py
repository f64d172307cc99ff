"""The catalogue: a SQLite file with the results for each picture."""
