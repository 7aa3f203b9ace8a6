"""docs/reference/order.md as a graph, and why nothing orders two steps."""
