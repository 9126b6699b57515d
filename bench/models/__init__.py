"""Plain models of what the node does, written apart from the program, from docs/PROTOCOL.md and what that cites."""
