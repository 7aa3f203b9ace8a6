"""Says in words what steps, states, waits and faults are."""
