"""From an exact report and another one to what the other one missed, and what its schemes did."""
