"""A plan in time: growth, losses, hours, and plans that move little. Each is plans of hsplan over other tables."""
