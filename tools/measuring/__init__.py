"""How far what a report found is from what was true, page by page."""
