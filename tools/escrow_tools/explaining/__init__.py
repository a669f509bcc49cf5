"""What an answer of the program means, where, and what to do."""
