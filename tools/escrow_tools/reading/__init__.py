"""What the clauses of `run` lead to in the specs, how long it is to read, and the page that explains it."""
