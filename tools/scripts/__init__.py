"""Scripts of damon: what it says of them, and the words in which a user is told."""
