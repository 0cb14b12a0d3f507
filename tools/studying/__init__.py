"""A study: the same plans over many programs, and what comes of them: tables, and pictures with a panel for each program."""
