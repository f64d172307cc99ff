"""A catalogue as plain tables of SQLite, for SQL, Datasette and pandas."""
