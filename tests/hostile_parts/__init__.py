"""What no proof speaks of: the built program under refused memory, small limits, strange files and drawn bytes."""
