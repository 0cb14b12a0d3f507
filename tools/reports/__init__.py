"""Reports of damon, and exact counts in the same form."""
