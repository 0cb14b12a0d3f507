"""From a report of damon to a picture."""
