"""From reports of damon to one page for a browser."""
