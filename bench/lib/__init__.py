"""What the benches share: how a command is measured, and the machines that are."""
