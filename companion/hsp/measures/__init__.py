"""What is measured becomes costs and capacities: readers of what tools write, and the figures of many times."""
