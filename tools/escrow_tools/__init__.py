"""What stands around the program: files made from what is published, answers explained, the page to sign.

All figures are whole cents or exact fractions, never floating point. What the program itself says is taken from it, and what is
worked out here is tried against it.
"""
