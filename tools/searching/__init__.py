"""From a plan to one row for each run: many settings over many workloads."""
