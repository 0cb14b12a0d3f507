"""From a trace of a program's memory accesses to a script of damon."""
