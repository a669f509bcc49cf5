"""The documents: the length of their sentences, the files that they name, and the commands that they show."""
