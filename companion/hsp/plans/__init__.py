"""A service and its plans: what they cost, what is full, and how both are shown."""
