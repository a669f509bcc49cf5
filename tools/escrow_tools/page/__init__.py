"""The page that a verifier signs: all figures, tried against the program's; tables of them; a picture; HTML and CSV."""
