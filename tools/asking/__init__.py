"""Answers questions about a report: which memory is hot, and why a page was taken or not."""
