"""Exit statuses: the program's own, and those of ./escrow and its tools alone, which the program never has."""

from __future__ import annotations

DONE, NO, USAGE, REFUSED, INFEASIBLE, NONE_WITHIN, BUDGET_SPENT = 0, 1, 2, 3, 4, 5, 6
READ_FAULT, WRITE_FAULT, NO_FILE, NO_MEMORY = 8, 9, 10, 11

# A tool made a part of what it was asked for, and says which.
MADE_A_PART = 123
MADE_NOTHING = 124
NOT_BUILT = 125
